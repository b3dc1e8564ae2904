class Point {
  x : Int;
  x() : Int { x };
  is_left_of(other : Point) : Bool { x < other.x() };
};
class Main inherits IO {
  a : Point <- new Point;
  main() : Object { if a.is_left_of(a) then out_int(1) else out_int(0) fi };
};
