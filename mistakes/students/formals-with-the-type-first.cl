class Main inherits IO {
  add(Int a, Int b) : Int {
    a + b
  };
  main() : Object {
    {
      out_int(add(3, 4));
      out_string("\n");
    }
  };
};
