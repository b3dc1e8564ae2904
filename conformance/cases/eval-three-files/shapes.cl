class Shape { name() : String { "shape" }; area() : Int { 0 }; };
class Circle inherits Shape { name() : String { "circle" }; area() : Int { 3 }; };
class Square inherits Shape {
  s : Int <- 2;
  side(n : Int) : SELF_TYPE { { s <- n; self; } };
  name() : String { "square" };
  area() : Int { s * s };
};
