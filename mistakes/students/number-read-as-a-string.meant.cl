class Main inherits IO {
  n : Int;
  main() : Object {
    {
      out_string("A number: ");
      n <- in_int();
      out_int(n * n);
    }
  };
};
