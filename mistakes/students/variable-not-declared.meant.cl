class Main inherits IO {
  total : Int;
  n : Int;
  main() : Object {
    {
      n <- in_int();
      total <- n * 2;
      out_int(total);
    }
  };
};
