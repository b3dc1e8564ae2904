class Main inherits IO {
  f(n : Int) : Int { n + 1 };
  main() : Object { out_int(f(1)) };
};
