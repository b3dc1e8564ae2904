class Hailstone {
  next(n : Int) : Int {
    if n = (n / 2) * 2 then n / 2 else 3 * n + 1 fi
  };
};
class Main inherits IO {
  h : Hailstone <- new Hailstone;
  main() : Object {
    let n : Int <- 13 in
      while not n = 1 loop { out_int(n); n <- h.next(n); } pool
  };
};
