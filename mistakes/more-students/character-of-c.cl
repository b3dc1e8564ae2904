class Main inherits IO {
  initial : String <- 'A';
  n : Int <- 3;
  main() : Object {
    {
      out_string(initial);
      out_int(n);
    }
  };
};
