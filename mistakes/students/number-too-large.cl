class Main inherits IO {
  least : Int <- 2147483648;
  smaller(n : Int) : Int { if n < least then least <- n else least fi };
  main() : Object {
    {
      smaller(in_int());
      out_int(smaller(in_int()));
    }
  };
};
