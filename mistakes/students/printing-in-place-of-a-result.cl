class Main inherits IO {
  max(a : Int, b : Int) : Int {
    if a < b then out_int(b) else out_int(a) fi
  };
  main() : Object {
    {
      out_int(max(1, 2));
      out_string("\n");
    }
  };
};
