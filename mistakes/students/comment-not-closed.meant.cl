class Main inherits IO {
  (* prints a number and a line *)
  show(n : Int) : Object {
    {
      out_int(n);
      out_string("\n");
    }
  };
  main() : Object { show(3) };
};
