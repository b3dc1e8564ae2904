class Main inherits IO {
  show(n : Int) : void {
    {
      out_int(n);
      out_string("\n");
    }
  };
  main() : Object { show(3) };
};
