class Main inherits IO {
  n : Int <- 3;
  main() : Object {
    {
      out_string("three\n");
      out_int(n)
    }
  };
};
