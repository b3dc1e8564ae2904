class Main inherits IO {
  fact(n : Int) : Int { if n < 1 + 1 then 3 - 2 else n * fact(n - 1) fi };
  main() : Object { out_int(fact(10)).out_string("\n") };
};
