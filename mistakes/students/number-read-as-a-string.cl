class Main inherits IO {
  n : Int;
  main() : Object {
    {
      out_string("A number: ");
      n <- in_string();
      out_int(n * n);
    }
  };
};
