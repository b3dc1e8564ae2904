class Rectangle {
  w : Int;
  h : Int;
  make(a : Int, b : Int) : Rectangle { { w <- a; h <- b; self; } };
  area() : Int { w * h };
  perimeter() : Int { w + w ++ h + h };
};
class Main inherits IO {
  main() : Object {
    let r : Rectangle <- (new Rectangle).make(4, 6) in {
      out_int(r.area());
      out_int(r.perimeter());
    }
  };
};
