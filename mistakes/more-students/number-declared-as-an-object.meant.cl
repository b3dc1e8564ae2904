class Main inherits IO {
  x : Int <- 3;
  main() : Object {
    {
      out_int(x + 1);
      out_string("\n");
    }
  };
};
