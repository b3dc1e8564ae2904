class Shape {
  area : Int;
  area() : Int { area };
};
class Square inherits Shape {
  init(side : Int) : Square { { area <- side * side; self; } };
};
class Main inherits IO {
  main() : Object { out_int((new Square).init(3).area()) };
};
