class Main inherits IO {
  show(n : Int) : Object {
    {
      out_int(n);
      out_string("\n");
    }
  };
  main() : Object { show(3) };
};
