class Digits {
  count(n : Int) : Int {
    let k : Int <- 0 in {
      while n != 0 loop {
        n <- n / 10;
        k <- k + 1;
      } pool;
      k;
    }
  };
};
class Main inherits IO {
  main() : Object { out_int((new Digits).count(40321)) };
};
