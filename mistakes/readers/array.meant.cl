class Ints {
  first : Int;
  rest : Ints;
  init(n : Int) : Ints { { if 1 < n then rest <- (new Ints).init(n - 1) else rest fi; self; } };
  get(index : Int) : Int { if index = 0 then first else rest.get(index - 1) fi };
};
class Main inherits IO {
  a : Ints <- (new Ints).init(10);
  main() : Object { out_int(a.get(0)) };
};
