-- A calculator: each line of the input is an expression, as 2 * (3 + 4), and is answered with its value.
-- Each level of the grammar is a method, which reads the text from left to right and computes as it goes.

-- A line of text that is read sign by sign. Blanks before a sign are passed over.
class Reader {
  text : String;
  at : Int;

  open(line : String) : Object {
    {
      text <- line;
      at <- 0;
      skip_blanks();
    }
  };

  at_end() : Bool { text.length() <= at };

  -- The sign that is read next, or nothing at the end.
  sign() : String { if at_end() then "" else text.substr(at, 1) fi };

  skip_blanks() : Object { while sign() = " " loop at <- at + 1 pool };

  -- Reads a sign if it is the next one, and says whether it was.
  accept(wanted : String) : Bool {
    if sign() = wanted then {
      at <- at + 1;
      skip_blanks();
      true;
    } else false fi
  };

  -- The value of the next sign where it is a digit, and else -1.
  digit() : Int {
    let value : Int <- 9 in {
      while if value < 0 then false else not "0123456789".substr(value, 1) = sign() fi loop
        value <- value - 1
      pool;
      value;
    }
  };

  -- Reads the digits that follow a number: they make it longer.
  digits(number : Int) : Int {
    let next : Int <- digit() in
      if next < 0 then {
        skip_blanks();
        number;
      } else {
        at <- at + 1;
        digits(10 * number + next);
      } fi
  };
};

class Calculator inherits Reader {
  fault : String;

  fault() : String { fault };

  -- Keeps the first fault of a line. The number that it gives is as good as any.
  fail(words : String) : Int {
    {
      if fault = "" then fault <- words else fault fi;
      0;
    }
  };

  value_of(line : String) : Int {
    {
      open(line);
      fault <- "";
      let value : Int <- sum() in
        if at_end() then value else fail("unexpected ".concat(sign())) fi;
    }
  };

  sum() : Int { more_terms(product()) };

  more_terms(left : Int) : Int {
    if accept("+") then more_terms(left + product()) else
    if accept("-") then more_terms(left - product()) else
    left fi fi
  };

  product() : Int { more_factors(factor()) };

  more_factors(left : Int) : Int {
    if accept("*") then more_factors(left * factor()) else
    if accept("/") then more_factors(quotient(left, factor())) else
    left fi fi
  };

  quotient(left : Int, right : Int) : Int {
    if right = 0 then fail("division by zero") else left / right fi
  };

  factor() : Int {
    if accept("-") then ~factor() else
    if accept("(") then closed(sum()) else
    if digit() < 0 then fail("a number is missing") else
    digits(0) fi fi fi
  };

  closed(value : Int) : Int {
    if accept(")") then value else fail(") is missing") fi
  };
};

class Main inherits IO {
  calculator : Calculator <- new Calculator;

  answer(line : String) : Object {
    let value : Int <- calculator.value_of(line) in {
      out_string(line);
      if calculator.fault() = "" then
        out_string(" = ").out_int(value)
      else
        out_string(" ? ").out_string(calculator.fault())
      fi;
      out_string("\n");
    }
  };

  main() : Object {
    let line : String <- in_string() in
      while not line = "" loop {
        answer(line);
        line <- in_string();
      } pool
  };
};
