class Door {
  locked : Bool <- true;
  public unlock() : Bool { locked <- false };
  isLocked() : Bool { locked };
};
class Main inherits IO {
  d : Door <- new Door;
  main() : Object {
    { d.unlock(); if d.isLocked() then out_string("shut") else out_string("open") fi; }
  };
};
