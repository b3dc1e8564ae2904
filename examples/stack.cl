-- A stack of texts: what was pushed last is popped first. This file has no class Main,
-- and is compiled with one that has: see brackets.cl.

class Stack {
  top : Item;

  is_empty() : Bool { isvoid top };

  push(text : String) : SELF_TYPE {
    {
      top <- (new Item).make(text, top);
      self;
    }
  };

  -- The text on top, or nothing where the stack is empty.
  top() : String { if is_empty() then "" else top.text() fi };

  -- Takes the text on top away, and gives it.
  pop() : String {
    let text : String <- top() in {
      if is_empty() then top else top <- top.below() fi;
      text;
    }
  };

  size() : Int {
    let count : Int, item : Item <- top in {
      while not isvoid item loop {
        count <- count + 1;
        item <- item.below();
      } pool;
      count;
    }
  };
};

class Item {
  text : String;
  below : Item;

  make(words : String, item : Item) : SELF_TYPE {
    {
      text <- words;
      below <- item;
      self;
    }
  };

  text() : String { text };
  below() : Item { below };
};
