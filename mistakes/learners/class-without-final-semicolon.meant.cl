class Point {
  x : Int;
  y : Int;
  set(a : Int, b : Int) : Point { { x <- a; y <- b; self; } };
  norm1() : Int { x + y };
};

class Main inherits IO {
  main() : Object { out_int((new Point).set(3, 4).norm1()) };
};
