class Main inherits IO {
  x : Int;
  f() : SELF_TYPE { self };
  main() : Object {
    { { 1; }; f(); f().f(); self@Main.f(); let x : Int in x; let x : Int, y : Int <- 1 in y; case 1 of x : Int => x; esac; (((1))); ~ ~1; not not true; isvoid isvoid 1; x <- x <- 1; }
  };
};
