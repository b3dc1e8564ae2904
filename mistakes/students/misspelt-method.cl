class Stack {
  size : Int;
  push(n : Int) : Stack { { size <- size + 1; self; } };
  size() : Int { size };
};
class Main inherits IO {
  s : Stack <- new Stack;
  main() : Object {
    {
      s.push(3);
      s.psuh(4);
      out_int(s.size());
    }
  };
};
