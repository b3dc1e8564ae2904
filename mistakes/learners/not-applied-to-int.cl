class Switchboard {
  lines : Int <- 4;
  busy : Int <- 0;
  call() : Int { busy <- busy + 1 };
  idle() : Bool { not busy };
};
class Main inherits IO {
  s : Switchboard <- new Switchboard;
  main() : Object { { s.call(); if s.idle() then out_string("ok") else out_string("full") fi; } };
};
