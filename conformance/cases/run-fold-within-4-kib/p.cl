class Main inherits IO {
  main() : Object {
    let n : Int, x : Int in {
      while not n = 100 loop { x <- 1 + 2 + 3 + 4 + 5 + 6 + 7 + 8; n <- n + 1; } pool;
      out_int(x);
    }
  };
};
