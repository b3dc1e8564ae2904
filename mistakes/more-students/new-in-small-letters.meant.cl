class Stack {
  size : Int;
  push(n : Int) : Int { size <- size + 1 };
};
class Main inherits IO {
  s : Stack <- new Stack;
  main() : Object { out_int(s.push(3)) };
};
