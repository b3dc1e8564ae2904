class Collatz inherits IO {
  even(n : Int) : Bool { n = (n / 2) * 2 };
  run(n : Int) : Int {
    let steps : Int <- 0 in {
      while not n = 1 lop {
        if even(n) then n <- n / 2 else n <- 3 * n + 1 fi;
        steps <- steps + 1;
      } pool;
      steps;
    }
  };
};
class Main inherits IO {
  main() : Object { out_int((new Collatz).run(27)) };
};
