class Point {
  x : Int <- 3;
  x() : Int { x };
};
class Main inherits IO {
  point : Point <- new Point;
  main() : Object { out_int(point.x()) };
};
