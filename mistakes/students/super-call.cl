class Shape inherits IO {
  show() : Object { out_string("a shape ") };
};
class Square inherits Shape {
  side : Int <- 3;
  show() : Object { { super.show(); out_int(side); } };
};
class Main {
  main() : Object { (new Square).show() };
};
