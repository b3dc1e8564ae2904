class Main inherits IO {
  n : Int <- 3;
  next() : Int {
    n <- n + 1
  };
  main() : Object {
    out_int(next())
  };
};
