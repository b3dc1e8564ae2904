class Main inherits IO {
  sum(n : Int) : Int {
    let total : Int <- 0 in {
      while 0 < n do {
        total <- total + n;
        n <- n - 1;
      } done;
      total;
    }
  };
  main() : Object { out_int(sum(100)) };
};
