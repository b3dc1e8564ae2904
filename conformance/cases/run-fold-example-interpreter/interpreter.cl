-- An interpreter of a small language: `set A V`, `add A V`, `sub A V`, `mul A V`, `print A`, `mark M`,
-- and `jump M V`, which goes on at mark M where V is above 0. A is a variable, V a variable or a number.

-- An instruction is up to three words: a verb and two operands.
class Instruction {
  line : String;
  at : Int;
  verb : String;
  name : String;
  operand : String;
  next : Instruction;

  read(text : String) : SELF_TYPE {
    {
      line <- text;
      verb <- word();
      name <- word();
      operand <- word();
      self;
    }
  };

  -- The next word of the line, which a blank or the end of the line ends.
  word() : String {
    let start : Int <- at in {
      while if at < line.length() then not line.substr(at, 1) = " " else false fi loop at <- at + 1 pool;
      let word : String <- line.substr(start, at - start) in {
        if at < line.length() then at <- at + 1 else at fi;
        word;
      };
    }
  };

  verb() : String { verb };
  name() : String { name };
  operand() : String { operand };
  next() : Instruction { next };
  is_mark(wanted : String) : Bool { if verb = "mark" then name = wanted else false fi };

  -- Puts another instruction behind this one.
  follow(other : Instruction) : Instruction { next <- other };
};

-- Variables with their values, each one in front of the others. The first has no name.
class Variables {
  name : String;
  value : Int;
  others : Variables;

  call(new_name : String) : SELF_TYPE {
    {
      name <- new_name;
      self;
    }
  };

  -- A variable that was never set is 0.
  get(wanted : String) : Int {
    if wanted = name then value else if isvoid others then 0 else others.get(wanted) fi fi
  };

  set(wanted : String, number : Int) : Object {
    if wanted = name then value <- number else {
      if isvoid others then others <- (new Variables).call(wanted) else others fi;
      others.set(wanted, number);
    } fi
  };
};

class Machine inherits IO {
  program : Instruction;
  variables : Variables <- new Variables;

  run(first : Instruction) : Object {
    {
      program <- first;
      while not isvoid first loop first <- step(first) pool;
    }
  };

  -- Does an instruction, and gives the one to go on with; void ends the run.
  step(i : Instruction) : Instruction {
    let verb : String <- i.verb(), old : Int <- variables.get(i.name()), value : Int <- value_of(i.operand()) in
      if verb = "jump" then if 0 < value then mark(i.name()) else i.next() fi else {
        if verb = "set" then variables.set(i.name(), value) else
        if verb = "add" then variables.set(i.name(), old + value) else
        if verb = "sub" then variables.set(i.name(), old - value) else
        if verb = "mul" then variables.set(i.name(), old * value) else
        if verb = "print" then out_string("  ").out_int(old).out_string("\n") else
        if verb = "mark" then self else
        out_string("  what is ").out_string(verb).out_string("?\n") fi fi fi fi fi fi;
        i.next();
      } fi
  };

  -- The place of a mark in the program, or void where there is none.
  mark(name : String) : Instruction {
    let i : Instruction <- program in {
      while if isvoid i then false else not i.is_mark(name) fi loop i <- i.next() pool;
      i;
    }
  };

  -- An operand is a number or a variable.
  value_of(operand : String) : Int {
    if operand = "" then 0 else
    if digit(operand.substr(0, 1)) < 0 then variables.get(operand) else
    number(operand, 0) fi fi
  };

  -- The number whose last digits are a text, and whose digits before them make a value.
  number(text : String, value : Int) : Int {
    if text = "" then value else
    number(text.substr(1, text.length() - 1), 10 * value + digit(text.substr(0, 1))) fi
  };

  -- The value of a digit, or -1 for any other sign.
  digit(sign : String) : Int {
    let value : Int <- 9 in {
      while if value < 0 then false else not "0123456789".substr(value, 1) = sign fi loop value <- value - 1 pool;
      value;
    }
  };
};

-- The input is programs, each of which ends with an empty line.
class Main inherits IO {
  read() : Instruction {
    let line : String <- in_string(), first : Instruction, last : Instruction in {
      while not line = "" loop {
        let next : Instruction <- (new Instruction).read(line) in {
          if isvoid last then first <- next else last.follow(next) fi;
          last <- next;
        };
        line <- in_string();
      } pool;
      first;
    }
  };

  main() : Object {
    let program : Instruction <- read(), count : Int <- 1 in
      while not isvoid program loop {
        out_string("program ").out_int(count).out_string("\n");
        (new Machine).run(program);
        program <- read();
        count <- count + 1;
      } pool
  };
};
