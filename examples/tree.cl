-- A binary search tree: smaller numbers stand on the left of a node and greater ones on its right.
-- The input is numbers, a line each; 0 or the end of the input ends them. A missing branch is void.

class Node {
  value : Int;
  left : Node;
  right : Node;

  hold(number : Int) : SELF_TYPE {
    {
      value <- number;
      self;
    }
  };

  value() : Int { value };
  left() : Node { left };
  right() : Node { right };

  grow_left(node : Node) : Object { left <- node };
  grow_right(node : Node) : Object { right <- node };
};

class Tree inherits IO {
  root : Node;

  -- Numbers that are there already are not inserted again.
  insert(number : Int) : Object { root <- inserted(root, number) };

  inserted(node : Node, number : Int) : Node {
    if isvoid node then (new Node).hold(number) else {
      if number < node.value() then node.grow_left(inserted(node.left(), number)) else
      if node.value() < number then node.grow_right(inserted(node.right(), number)) else
      node fi fi;
      node;
    } fi
  };

  has(number : Int) : Bool { is_below(root, number) };

  is_below(node : Node, number : Int) : Bool {
    if isvoid node then false else
    if number < node.value() then is_below(node.left(), number) else
    if node.value() < number then is_below(node.right(), number) else
    true fi fi fi
  };

  size() : Int { size_of(root) };

  size_of(node : Node) : Int {
    if isvoid node then 0 else size_of(node.left()) + 1 + size_of(node.right()) fi
  };

  height() : Int { height_of(root) };

  height_of(node : Node) : Int {
    if isvoid node then 0 else 1 + greater(height_of(node.left()), height_of(node.right())) fi
  };

  greater(one : Int, other : Int) : Int { if one < other then other else one fi };

  -- Writes the numbers in order: what is left of a node, itself, and what is right of it.
  write() : Object { write_from(root) };

  write_from(node : Node) : Object {
    if isvoid node then self else {
      write_from(node.left());
      out_string(" ").out_int(node.value());
      write_from(node.right());
    } fi
  };

  -- Draws the tree on its side: the root at the left margin, greater numbers above smaller ones.
  draw() : Object { draw_from(root, "  ") };

  draw_from(node : Node, margin : String) : Object {
    if isvoid node then self else {
      draw_from(node.right(), margin.concat("    "));
      out_string(margin).out_int(node.value()).out_string("\n");
      draw_from(node.left(), margin.concat("    "));
    } fi
  };
};

class Main inherits IO {
  tree : Tree <- new Tree;

  read() : Object {
    let number : Int <- in_int() in
      while not number = 0 loop {
        tree.insert(number);
        number <- in_int();
      } pool
  };

  look_for(number : Int) : Object {
    {
      out_int(number);
      out_string(if tree.has(number) then " is there\n" else " is not there\n" fi);
    }
  };

  main() : Object {
    {
      read();
      out_string("The tree:\n");
      tree.draw();
      out_string("In order:");
      tree.write();
      out_string("\nNumbers: ").out_int(tree.size());
      out_string("\nHeight: ").out_int(tree.height()).out_string("\n");
      look_for(42);
      look_for(43);
    }
  };
};
