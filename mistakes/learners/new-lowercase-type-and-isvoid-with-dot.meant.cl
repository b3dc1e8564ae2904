class Tree {
  left : Tree;
  right : Tree;
  grow() : Tree { { left <- new Tree; right <- new Tree; self; } };
  size() : Int {
    if isvoid left then 1 else 1 + left.size() + right.size() fi
  };
};
class Main inherits IO {
  main() : Object { out_int((new Tree).grow().size()) };
};
