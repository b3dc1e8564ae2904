class Elevator inherits IO {
  floor : Int <- 0;
  goto(target : Int) : Object {
    while not floor = target loop {
      if floor < target then floor <- floor + 1 else floor <- floor - 1 fi;
      out_int(floor);
     } pool
  };
};
class Main {
  main() : Object { (new Elevator).goto(4) };
};
