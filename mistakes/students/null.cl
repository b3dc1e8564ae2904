class Node {
  next : Node;
  next() : Node { next };
};
class Main inherits IO {
  node : Node <- new Node;
  main() : Object {
    if node.next() = null then out_string("end\n") else out_string("more\n") fi
  };
};
