class Tank {
  litres : Int <- 40;
  drive(km : Int) : Int { litres := litres - km / 10 };
  refill() : Int { litres <- 40 };
};
class Main inherits IO {
  t : Tank <- new Tank;
  main() : Object {
    { out_int(t.drive(120)); out_int(t.refill()); }
  };
};
