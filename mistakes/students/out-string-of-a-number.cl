class Main inherits IO {
  total : Int;
  main() : Object {
    {
      total <- 3 * 4;
      out_string("total: ");
      out_string(total);
    }
  };
};
