class Stack {
  size : Int;
  push(n : Int) : Stack { { size <- size + 1; self; } };
  size() : Int { size };
};
class Main inherits IO {
  s : Stack <- (new Stack).push(3);
  main() : Object { out_int(s.size()) };
};
