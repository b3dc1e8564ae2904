class Node {
  value : Int;
  set(v : Int) : Node { { value <- v; self; } };
  value() : Int { value };
};
class Main inherits IO {
  main() : Object { out_int((new Node).set(3).value()) };
};
