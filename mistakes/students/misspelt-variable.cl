class Main inherits IO {
  count : Int <- 3;
  total : Int;
  main() : Object {
    {
      total <- cuont * 2;
      out_int(total);
    }
  };
};
