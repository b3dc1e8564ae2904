class Shape inherits IO {
  name : String <- "shape";
  sides : Int;
  named(n : String) : Shape { { name <- n; self; } };
  show() : Object { out_string(name).out_string("\n") };
  area(scale : Int) : Int { sides * scale };
};

class Square inherits Shape {
  edge : Int <- 2;
  area(scale : Int) : Int { edge * edge * scale };

};

class Main inherits IO {
  main() : Object {
    let s : Shape <- (new Square).named("square"), n : Int <- 3 in
      {
        s@Shape.show();
        s.copy()@Shape.show();
        out_int(s.area(n)).out_string("\n");
      }
  };
};
