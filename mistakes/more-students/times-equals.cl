class Main inherits IO {
  power(base : Int, n : Int) : Int {
    let result : Int <- 1 in {
      while 0 < n loop {
        result *= base;
        n <- n - 1;
      } pool;
      result;
    }
  };
  main() : Object { out_int(power(2, 10)) };
};
