-- Counts the lines, words and letters of the input, and finds its longest word and its palindromes.
-- A text is taken apart with length and substr alone, and the input ends with its first empty line.

-- A line of text that gives its words one by one.
class Line {
  text : String;
  at : Int;

  open(line : String) : SELF_TYPE {
    {
      text <- line;
      skip_blanks();
      self;
    }
  };

  at_end() : Bool { text.length() <= at };
  at_blank() : Bool { text.substr(at, 1) = " " };

  skip_blanks() : Object {
    while if at_end() then false else at_blank() fi loop at <- at + 1 pool
  };

  skip_word() : Object {
    while if at_end() then false else not at_blank() fi loop at <- at + 1 pool
  };

  next_word() : String {
    let start : Int <- at in {
      skip_word();
      let word : String <- text.substr(start, at - start) in {
        skip_blanks();
        word;
      };
    }
  };
};

class Statistics inherits IO {
  lines : Int;
  words : Int;
  letters : Int;
  longest : String;
  palindromes : String;

  is_palindrome(word : String) : Bool {
    let last : Int <- word.length() - 1 in
      if last < 1 then true else
      if word.substr(0, 1) = word.substr(last, 1) then is_palindrome(word.substr(1, last - 1)) else
      false fi fi
  };

  add_word(word : String) : Object {
    {
      words <- words + 1;
      letters <- letters + word.length();
      if longest.length() < word.length() then longest <- word else longest fi;
      if word.length() < 2 then palindromes else
      if is_palindrome(word) then palindromes <- palindromes.concat(" ").concat(word) else
      palindromes fi fi;
    }
  };

  add_line(text : String) : Object {
    let line : Line <- (new Line).open(text) in {
      lines <- lines + 1;
      while not line.at_end() loop add_word(line.next_word()) pool;
    }
  };

  show(label : String, count : Int) : Object {
    out_string(label).out_int(count).out_string("\n")
  };

  write() : Object {
    {
      show("lines        ", lines);
      show("words        ", words);
      show("letters      ", letters);
      out_string("longest word ").out_string(longest).out_string("\n");
      out_string("palindromes ").out_string(palindromes).out_string("\n");
    }
  };
};

class Main inherits IO {
  main() : Object {
    let statistics : Statistics <- new Statistics, line : String <- in_string() in {
      while not line = "" loop {
        statistics.add_line(line);
        line <- in_string();
      } pool;
      statistics.write();
    }
  };
};
