-- Fibonacci numbers, slow version
class Fib {
  of_(n : Int) : Int {
    if n < 2 then n
    else of_(n - 1) + of_(n - 2)
    fi
  };
};

class Main inherits IO {
  main() : Object {
    let f : Fib <- new Fib, i : Int <- 0 in
      while i < 12 loop {
        out_int(f.of_(i));
        out_string(" ");
        i <- i + 1;
      } pool
  };
};
