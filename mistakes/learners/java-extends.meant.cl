class Vehicle {
  wheels() : Int { 4 };
  speed : Int <- 50;
  distance(h : Int) : Int { speed * h };
};
class Bike inherits Vehicle {
  wheels() : Int { 2 };
};
class Main inherits IO {
  main() : Object {
    { out_int((new Bike).wheels()); out_int((new Bike).distance(3)); }
  };
};
