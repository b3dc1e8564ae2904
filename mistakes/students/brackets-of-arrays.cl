class Pair {
  first : Int <- 3;
  second : Int <- 4;
  get(index : Int) : Int { if index = 0 then first else second fi };
};
class Main inherits IO {
  pair : Pair <- new Pair;
  main() : Object { out_int(pair[0]) };
};
