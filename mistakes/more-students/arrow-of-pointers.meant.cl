class Stack {
  items : Int;
  push(n : Int) : Stack { { items <- items + n; self; } };
  top() : Int { items };
};
class Main inherits IO {
  s : Stack <- new Stack;
  main() : Object { out_int(s.push(3).top()) };
};
