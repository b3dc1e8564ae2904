class Circle {
  r : Int <- 5;
  circumference() : Int { 2 * r * 314 / 100 };
  diameter() : Int { 2 * r };
};
class Main inherits IO {
  c : Circle <- new Circle;
  main() : Object { { out_int(c.circumference()); out_int(c.diameter()); } };
};
