class Main inherits IO {
  n : Int <- 3;
  main() : Object {
    {
      out_string("a".concat("b"));
      out_int(n);
    }
  };
};
