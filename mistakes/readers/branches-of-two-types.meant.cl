class Main inherits IO {
  f(b : Bool) : Int { if b then 1 else 0 fi };
  main() : Object { out_int(f(true)) };
};
