class Ladder {
  // height in steps
  rungs : Int <- 9;
  climb(n : Int) : Int {
    if rungs < n then rungs else n fi
  };
};
class Main inherits IO {
  main() : Object { out_int((new Ladder).climb(12)) };
};
