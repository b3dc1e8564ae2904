-- Words are put into a tree, and written in order with their numbers.
class Words inherits IO {
  order : String <- " abcdefghijklmnopqrstuvwxyz";
  rank(c : String) : Int { let i : Int in { while not order.substr(i, 1) = c loop i <- i + 1 pool; i; } };
  before(a : String, b : String) : Bool {
    if b = "" then false else if a = "" then true else
      let x : Int <- rank(a.substr(0, 1)), y : Int <- rank(b.substr(0, 1)) in
        if x = y then before(a.substr(1, a.length() - 1), b.substr(1, b.length() - 1)) else x < y fi
    fi fi
  };
};
class Tree inherits Words {
  word : String; times : Int; left : Tree; right : Tree;
  leaf(w : String) : SELF_TYPE { { word <- w; times <- 1; self; } };
  put(w : String) : SELF_TYPE { {
    if w = word then times <- times + 1
    else if before(w, word) then if isvoid left then left <- (new SELF_TYPE).leaf(w) else left.put(w) fi
    else if isvoid right then right <- (new SELF_TYPE).leaf(w) else right.put(w) fi fi fi;
    self;
  } };
  show() : Object { {
    if isvoid left then 0 else left.show() fi;
    out_string(word).out_string(" ").out_int(times).out_string("\n");
    if isvoid right then 0 else right.show() fi;
  } };
  depth() : Int {
    let l : Int <- if isvoid left then 0 else left.depth() fi,
        r : Int <- if isvoid right then 0 else right.depth() fi in
      1 + (if l < r then r else l fi)
  };
};
class Main inherits IO {
  main() : Object {
    let word : String <- in_string(), tree : Tree in {
      while not word = "" loop {
        if isvoid tree then tree <- (new Tree).leaf(word) else tree.put(word) fi;
        word <- in_string();
      } pool;
      if isvoid tree then out_string("no words\n") else { tree.show(); out_string("depth ").out_int(tree.depth()).out_string("\n"); } fi;
    }
  };
};
