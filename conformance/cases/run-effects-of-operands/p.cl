class Main inherits IO {
  n(x : Int) : Int { { out_int(x); x; } };
  b(x : Bool) : Bool { { out_string(if x then "t" else "f" fi); x; } };
  main() : Object {
    {
      while b(false) loop 0 pool; out_string(" ");
      not b(true); out_string(" ");
      ~n(1); out_string(" ");
      2 * n(3); out_string(" ");
      4 < n(5); out_string(" ");
      6 <= n(7); out_string(" ");
      8 = n(9); out_string("\n");
    }
  };
};
