class Main inherits IO {
  sum(n : Int) : Int { if n = 0 then 0 else n + sum(n - 1) fi };
  main() : Object { out_int(sum(in_int())) };
};
