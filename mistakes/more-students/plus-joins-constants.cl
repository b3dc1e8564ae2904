class Main inherits IO {
  n : Int <- 3;
  main() : Object {
    {
      out_string("a" + "b");
      out_int(n);
    }
  };
};
