class LeapYear {
  divisible(y : Int, d : Int) : Bool { y % d = 0 };
  leap(y : Int) : Bool {
    if divisible(y, 400) then true else
    if divisible(y, 100) then false else divisible(y, 4) fi fi
  };
};
class Main inherits IO {
  main() : Object {
    if (new LeapYear).leap(in_int()) then out_string("leap") else out_string("common") fi
  };
};
