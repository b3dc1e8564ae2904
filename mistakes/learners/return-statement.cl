class Prime {
  divides(d : Int, n : Int) : Bool { n = (n / d) * d };
  check(n : Int) : Bool {
    let d : Int <- 2, ok : Bool <- true in {
      while d * d <= n loop {
        if divides(d, n) then ok <- false else ok fi;
        d <- d + 1;
      } pool;
      return ok;
    }
  };
};
class Main inherits IO {
  main() : Object {
    if (new Prime).check(97) then out_string("prime") else out_string("composite") fi
  };
};
