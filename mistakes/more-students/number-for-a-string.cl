class Main inherits IO {
  name : String <- 7;
  n : Int <- 3;
  main() : Object {
    {
      out_string(name);
      out_int(n);
    }
  };
};
