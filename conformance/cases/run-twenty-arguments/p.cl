-- A method of twenty formals: the order of arguments, which formal gets which, and calls within arguments.
class Main inherits IO {
  n(x : Int) : Int { { out_int(x).out_string(" "); x; } };
  many(a1 : Int, a2 : Int, a3 : Int, a4 : Int, a5 : Int, a6 : Int, a7 : Int, a8 : Int, a9 : Int, a10 : Int, a11 : Int, a12 : Int,
      a13 : Int, a14 : Int, a15 : Int, a16 : Int, a17 : Int, a18 : Int, a19 : Int, a20 : Int) : Int {
    {
      out_string("\n");
      n(a20); n(a19); n(a18); n(a17); n(a16); n(a15); n(a14); n(a13); n(a12); n(a11); n(a10); n(a9); n(a8); n(a7); n(a6); n(a5); n(a4);
          n(a3); n(a2); n(a1);
      1 * a1 + 2 * a2 + 3 * a3 + 4 * a4 + 5 * a5 + 6 * a6 + 7 * a7 + 8 * a8 + 9 * a9 + 10 * a10 + 11 * a11 + 12 * a12 + 13 * a13 + 14 *
          a14 + 15 * a15 + 16 * a16 + 17 * a17 + 18 * a18 + 19 * a19 + 20 * a20;
    }
  };
  mixed(a : Int, b : String, c : Bool, d : Object, e : Main, f : Int, g : String, h : Bool, i : Object, j : IO) : Object { {
    out_int(a).out_string(b).out_string(if c then "t" else "f" fi).out_string(d.type_name()).out_string(e.type_name());
    out_int(f).out_string(g).out_string(if h then "t" else "f" fi).out_string(i.type_name()).out_string(j.type_name()).out_string("\n");
  } };
  main() : Object { {
    out_int(many(n(1), n(4), n(9), n(16), n(25), n(36), n(49), n(64), n(81), n(100), n(121), n(144), n(169), n(196), n(225), n(256),
        n(289), n(324), n(361), n(400))).out_string("\n");
    out_int(many(0, 1, 2, many(3, 4, 5, 6, 7, 8, 9, 10, 11, 12, 13, 14, 15, 16, 17, 18, 19, 20, 21, 22), 4, 5, 6, 7, 8, 9, 10, 11, 12,
        13, 14, 15, 16, many(17, 18, 19, 20, 21, 22, 23, 24, 25, 26, 27, 28, 29, 30, 31, 32, 33, 34, 35, 36), 18, 19)).out_string("\n");
    mixed(1, "two", true, 4, self, 6, "seven", false, "nine", new IO);
  } };
};
