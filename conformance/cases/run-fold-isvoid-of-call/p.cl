class A {
  io : IO <- new IO;
  none : A;
  some() : A { { io.out_string("some "); self; } };
  nothing() : A { { io.out_string("nothing "); none; } };
};
class Main inherits IO {
  say(b : Bool) : Object { if b then out_string("void\n") else out_string("no void\n") fi };
  main() : Object { let a : A <- new A in { say(isvoid a.some()); say(isvoid a.nothing()); say(isvoid out_string("")); } };
};
