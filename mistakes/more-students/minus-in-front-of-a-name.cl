class Main inherits IO {
  negated(n : Int) : Int {
    -n
  };
  main() : Object {
    {
      out_int(negated(3));
      out_string("\n");
    }
  };
};
