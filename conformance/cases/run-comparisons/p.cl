-- Each comparison of five numbers with each other: t where it is true, f where it is not.
class Main inherits IO {
  min : Int <- ~2147483647 - 1;
  max : Int <- 2147483647;
  t(x : Bool) : Object { out_string(if x then "t" else "f" fi) };
  row(x : Int, y : Int) : Object { {
    out_int(x).out_string(" ").out_int(y).out_string(" ");
    t(x < y); t(x <= y); t(x = y); t(not x < y); t(not x <= y); t(not x = y);
    out_string("\n");
  } };
  against(x : Int) : Object { { row(x, min); row(x, ~1); row(x, 0); row(x, 1); row(x, max); } };
  main() : Object { {
    against(min); against(~1); against(0); against(1); against(max);
    t(1 + 1 < 3); t(3 < 1 + 1); t(2 * 2 <= 4); t(1 - 2 = ~1); t(~5 < ~4);
    out_string("\n");
  } };
};
