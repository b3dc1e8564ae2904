class Main inherits IO {
  f(n : Int) : Int { { while n < 10 loop n <- n + 1 pool; n; } };
  main() : Object { out_int(f(1)) };
};
