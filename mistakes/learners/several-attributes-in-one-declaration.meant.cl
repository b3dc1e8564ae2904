class Box {
  w : Int; h : Int;
  depth : Int;
  set(a : Int, b : Int, c : Int) : Box { { w <- a; h <- b; depth <- c; self; } };
  volume() : Int { w * h * depth };
};
class Main inherits IO {
  main() : Object { out_int((new Box).set(2, 3, 4).volume()) };
};
