class Main inherits IO {
  Show(n : Int) : Object {
    {
      out_int(n);
      out_string("\n");
    }
  };
  main() : Object { Show(3) };
};
