class Car {
  fuel : Int <- 60;
  getFuel() : Int { fuel };
  drive() : Int { fuel <- fuel - 8 };
};
class Main inherits IO {
  c : Car <- new Car;
  main() : Object { { c.drive(); out_int(c.fuel); } };
};
