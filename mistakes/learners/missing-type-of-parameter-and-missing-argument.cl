class Lottery {
  seed : Int <- 5;
  draw(limit, offset : Int) : Int {
    {
      seed <- seed * 31 + 7;
      seed - (seed / limit) * limit + offset;
    }
  };
};
class Main inherits IO {
  l : Lottery <- new Lottery;
  main() : Object { { out_int(l.draw(49, 1)); out_int(l.draw()); } };
};
