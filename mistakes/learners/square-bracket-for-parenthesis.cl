class Dice {
  seed : Int <- 17;
  next() : Int {
    {
      seed <- (seed * 75 + 74) - ((seed * 75 + 74) / 257) * 257;
      seed - (seed / 6] * 6 + 1;
    }
  };
};
class Main inherits IO {
  main() : Object {
    let d : Dice <- new Dice, i : Int <- 0 in
      while i < 5 loop { out_int(d.next()); i <- i + 1; } pool
  };
};
