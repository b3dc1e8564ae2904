class Main inherits IO {
  f(n : Int) : Int { n };
  main() : Object { out_int(f(1)) };
};
