class Main inherits IO {
  x : Int <- 1;
  x() : Int { x + 1 };
  y : Int <- 2;
  y(x : Int) : Int { x + y };
  main() : Object {
    { out_int(x); out_int(x()); out_int(y(x)); x <- 4; out_int(x() + x); }
  };
};
