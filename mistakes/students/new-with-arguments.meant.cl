class Point {
  x : Int;
  y : Int;
  init(a : Int, b : Int) : Point { { x <- a; y <- b; self; } };
  sum() : Int { x + y };
};
class Main inherits IO {
  point : Point <- (new Point).init(3, 4);
  main() : Object { out_int(point.sum()) };
};
