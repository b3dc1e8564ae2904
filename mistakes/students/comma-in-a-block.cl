class Main inherits IO {
  n : Int <- 3;
  main() : Object {
    {
      out_string("n is "),
      out_int(n);
      out_string("\n");
    }
  };
};
