class Main inherits IO {
  n : Int <- 3;
  name : String <- "Ada";
  main() : Object {
    {
      out_string(name);
      out_int(n);
    }
  };
};
