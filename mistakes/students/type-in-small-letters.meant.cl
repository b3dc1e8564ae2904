class Main inherits IO {
  n : Int <- 3;
  text : String <- "n is ";
  main() : Object {
    {
      out_string(text);
      out_int(n);
    }
  };
};
