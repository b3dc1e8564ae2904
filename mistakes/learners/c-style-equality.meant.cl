class Lock {
  code : Int <- 4711;
  open : Bool <- false;
  try(c : Int) : Bool {
    if c = code then open <- true else false fi
  };
};
class Main inherits IO {
  lock : Lock <- new Lock;
  main() : Object {
    if lock.try(in_int()) then out_string("open\n") else out_string("locked\n") fi
  };
};
