class Shape inherits IO {
  name : String <- "shape";
  sides : Int;
  named(n : String) : Shape { { name <- n; self; } };
  show() : Object { out_string(name).out_string("\n") };
  area(scale : Int) : Int { sides * scale };
};

class Square inherits Shape {
  edge : Int <- 2;
  area(scale : Int) : Int { edge * edge * scale };
  named(edge : String) : Shape { self };
  show() : Object { 1 };
  out_int(number : Int) : SELF_TYPE { self };
};

class Main inherits IO {
  main() : Object {
    let s : Shape <- (new Square).named("square"), n : Int <- 3 in
      {
        s.show();
        out_int(s.area(n)).out_string("\n");
      }
  };
};
