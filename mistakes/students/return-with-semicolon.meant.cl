class Main inherits IO {
  square(n : Int) : Int {
    n * n
  };
  main() : Object {
    {
      out_int(square(3));
      out_string("\n");
    }
  };
};
