class Point {
  x : Int;
  y : Int;
  init(a : Int, b : Int) : Point { { x <- a; y <- b; self; } };
  sum() : Int { x + y };
};
class Main inherits IO {
  main() : Object { out_int((new Point).init(3, 4).sum()) };
};
