class Main inherits IO {
  n : Int;
  main() : Object {
    {
      n <- in_int();
      total <- n * 2;
      out_int(total);
    }
  };
};
