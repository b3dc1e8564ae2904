class Node {
  val : Int;
  next : Node;
  set(v : Int, n : Node) : Node { { val <- v; next <- n; self; } };
  sum() : Int { if isvoid next then val else val + next.sum() fi };
  cut() : Node { { next <- null; self; } };
};
class Main inherits IO {
  main() : Object {
    let a : Node <- new Node, b : Node <- (new Node).set(5, a) in
      { out_int(b.sum()); b.cut(); out_int(b.sum()); }
  };
};
