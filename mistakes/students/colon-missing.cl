class Point {
  x Int;
  y : Int <- 4;
  sum() : Int { x + y };
};
class Main inherits IO {
  point : Point <- new Point;
  main() : Object { out_int(point.sum()) };
};
