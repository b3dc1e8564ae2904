class Vector {
  x : Int;
  y : Int;
  init(a : Int, b : Int) : Vector { { x <- a; y <- b; self; } };
  dot(o : Vector) : Int { x * o.getX() + y * o.getY() };
  getX() : Int { x };
  getY() : Int { y };
};
class Main inherits IO {
  main() : Object { out_int((new Vector).init(2, 3).dot((new Vector).init(4, 1))) };
};
