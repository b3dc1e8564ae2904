class Main inherits IO {
  main() : Object {
    {
      out_string("total: ");
      Int total = 3;
      out_int(total);
      out_string("\n");
    }
  };
};
