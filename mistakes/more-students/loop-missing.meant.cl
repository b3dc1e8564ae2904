class Main inherits IO {
  n : Int <- 3;
  main() : Object {
    while 0 < n loop
      {
        out_int(n);
        n <- n - 1;
      }
    pool
  };
};
