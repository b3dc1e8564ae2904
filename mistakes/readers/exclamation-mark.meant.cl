class Main inherits IO {
  f() : Bool { true };
  main() : Object { if not f() then out_int(1) else out_int(2) fi };
};
