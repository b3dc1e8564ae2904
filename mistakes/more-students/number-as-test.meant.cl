class Main inherits IO {
  n : Int <- 3;
  main() : Object {
    while not n = 0 loop {
      out_int(n);
      n <- n - 1;
    } pool
  };
};
