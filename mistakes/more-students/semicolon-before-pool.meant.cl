class Main inherits IO {
  n : Int <- 3;
  main() : Object {
    while 0 < n loop
      n <- n - 1
    pool
  };
};
