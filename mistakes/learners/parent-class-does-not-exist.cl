class Figure { area() : Int { 0 }; };
class Quad inherits Figur {
  side : Int <- 7;
  area() : Int { side * side };
};
class Main inherits IO {
  main() : Object {
    let f : Figure <- new Figure, q : Quad <- new Quad in
      out_int(f.area() + q.area())
  };
};
