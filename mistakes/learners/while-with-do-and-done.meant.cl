class Main inherits IO {
  sum(n : Int) : Int {
    let total : Int <- 0 in {
      while 0 < n loop {
        total <- total + n;
        n <- n - 1;
      } pool;
      total;
    }
  };
  main() : Object { out_int(sum(100)) };
};
