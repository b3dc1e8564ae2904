-- A program in two files: says of each line of the input whether its brackets match, with the stack of stack.cl.
-- The stack holds the brackets that still have to come, the nearest one on top.

class Brackets {
  expected : Stack <- new Stack;

  -- The bracket that closes another one, or nothing for any other sign.
  closing(sign : String) : String {
    if sign = "(" then ")" else
    if sign = "[" then "]" else
    if sign = "{" then "}" else
    "" fi fi fi
  };

  is_closing(sign : String) : Bool {
    if sign = ")" then true else
    if sign = "]" then true else
    sign = "}" fi fi
  };

  -- Reads a sign, and says whether it may stand where it does.
  accept(sign : String) : Bool {
    if is_closing(sign) then sign = expected.pop() else {
      if closing(sign) = "" then expected else expected.push(closing(sign)) fi;
      true;
    } fi
  };

  missing() : Int { expected.size() };
  next() : String { expected.top() };
};

class Main inherits IO {
  -- How many signs of a line may stand where they do, before the first that may not.
  accepted(line : String, brackets : Brackets) : Int {
    let at : Int in {
      while if at < line.length() then brackets.accept(line.substr(at, 1)) else false fi loop at <- at + 1 pool;
      at;
    }
  };

  answer(line : String) : Object {
    let brackets : Brackets <- new Brackets, count : Int <- accepted(line, brackets) in {
      out_string(line).out_string("   ");
      if count < line.length() then
        out_string("wrong at place ").out_int(count + 1)
      else if 0 < brackets.missing() then
        out_int(brackets.missing()).out_string(" missing, first ").out_string(brackets.next())
      else
        out_string("right")
      fi fi;
      out_string("\n");
    }
  };

  main() : Object {
    let line : String <- in_string() in
      while not line = "" loop {
        answer(line);
        line <- in_string();
      } pool
  };
};
