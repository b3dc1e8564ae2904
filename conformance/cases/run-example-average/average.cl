-- The average of some numbers, with a mistake: it ends by a division by zero. `docs/debugger.md` finds the line at fault.

class Numbers {
  sum : Int;
  count : Int;

  add(number : Int) : SELF_TYPE {
    {
      sum <- sum + number;
      let count : Int <- count + 1 in self;
    }
  };

  average() : Int { sum / count };
};

class Main inherits IO {
  main() : Object {
    let numbers : Numbers <- new Numbers in {
      numbers.add(4);
      numbers.add(8);
      out_string("The average is ").out_int(numbers.average()).out_string("\n");
    }
  };
};
