class Main inherits IO {
  max(a : Int, b : Int) : Int {
    if a < b then b else a fi
  };
  main() : Object {
    {
      out_string("largest: ");
      out_int(max(in_int(), in_int()));
      out_string("\n");
    }
  };
};
