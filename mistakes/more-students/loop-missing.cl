class Main inherits IO {
  n : Int <- 3;
  main() : Object {
    while 0 < n
      {
        out_int(n);
        n <- n - 1;
      }
    pool
  };
};
