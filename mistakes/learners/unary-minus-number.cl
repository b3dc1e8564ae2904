class Depth {
  metres : Int <- -20;
  dive(n : Int) : Int { metres <- metres - n };
  rise(n : Int) : Int { metres <- metres + n };
};
class Main inherits IO {
  d : Depth <- new Depth;
  main() : Object { { d.dive(15); out_int(d.rise(5)); } };
};
