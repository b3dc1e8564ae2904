class Point {
  x : Int;
  y : Int;
  move(dx : Int, dy : Int) : Point { { x <- x + dx; y <- y + dy; self; } };
  x() : Int { x };
};
class Main inherits IO {
  main() : Object { out_int((new Point).move(3, 4).x()) };
};
