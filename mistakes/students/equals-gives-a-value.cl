class Main inherits IO {
  n : Int = 5;
  double() : Int { n * 2 };
  main() : Object {
    {
      n <- double();
      out_int(n);
    }
  };
};
