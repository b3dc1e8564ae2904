class Robot inherits IO {
  x : Int <- 0;
  step() : Int { x <- x + 1 };
  where() : Object { out_int(x) };
};
class Main {
  r : Robot <- new Robot;
  main() : Object { { r.step(); r.step(); r.where(); } };
};
