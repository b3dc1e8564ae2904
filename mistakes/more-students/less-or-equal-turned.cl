class Main inherits IO {
  n : Int <- 3;
  main() : Object {
    while n =< 5 loop {
      out_int(n);
      n <- n + 1;
    } pool
  };
};
