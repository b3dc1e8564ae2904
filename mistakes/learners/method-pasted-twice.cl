class Stack {
  top : Int;
  below : Stack;
  setTop(i : Int, s : Stack) : Stack { { top <- i; below <- s; self; } };
  push(i : Int) : Stack { (new Stack).setTop(i, self) };
  pop() : Stack { below };
  pop() : Stack { below };
  peek() : Int { top };
};
class Main inherits IO {
  s : Stack <- new Stack;
  main() : Object {
    { s <- s.push(1).push(2); out_int(s.peek()); s <- s.pop(); out_int(s.peek()); }
  };
};
