class Point {
  x : Int;
  x() : Int { x };
  set_x(value : Int) : Int { x <- value };
};
class Main inherits IO {
  p : Point <- new Point;
  main() : Object { { p.x <- 3; out_int(p.x()); } };
};
