class Log {
  floorLog(n : Int) : Int {
    let k : Int <- 0 in {
      while 1 < n loop { n <- n / 2; k <- k + 1; } pool;
      k;
    }
  };
};
class Main inherits IO {
  main() : Object { out_int((new Log).floorLog(1000)) };
};
