class Stack {
  items : Int;
  push(n : Int) : Stack { { items <- items + n; self; } };
  top() : Int { items };
};
class Main inherits IO {
  main() : Object { out_int((new Stack).push(3).top()) };
};
