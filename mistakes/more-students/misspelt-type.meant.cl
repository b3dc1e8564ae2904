class Main inherits IO {
  name : String <- "Ada";
  n : Int <- 3;
  main() : Object {
    {
      out_string(name);
      out_int(n);
    }
  };
};
