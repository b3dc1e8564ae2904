-- Caesar's cipher: each letter of a text moves on in the alphabet, and all other signs stay as they are.
-- The first line of the input is how far the letters move, and the lines behind it are the text.

-- An alphabet is a ring of letters, in which the first follows the last.
class Alphabet {
  letters : String;

  make(text : String) : SELF_TYPE {
    {
      letters <- text;
      self;
    }
  };

  size() : Int { letters.length() };

  -- The place of a letter, or -1 where it is none of this alphabet.
  place(letter : String) : Int {
    let place : Int <- size() - 1 in {
      while if place < 0 then false else not letters.substr(place, 1) = letter fi loop
        place <- place - 1
      pool;
      place;
    }
  };

  -- The letter at a place; the ring goes on in both directions.
  letter(place : Int) : String {
    if place < 0 then letter(place + size()) else
    if size() <= place then letter(place - size()) else
    letters.substr(place, 1) fi fi
  };

  has(sign : String) : Bool { 0 <= place(sign) };
  moved(sign : String, by : Int) : String { letter(place(sign) + by) };
};

class Cipher {
  small : Alphabet <- (new Alphabet).make("abcdefghijklmnopqrstuvwxyz");
  capital : Alphabet <- (new Alphabet).make("ABCDEFGHIJKLMNOPQRSTUVWXYZ");
  key : Int;

  make(distance : Int) : SELF_TYPE {
    {
      key <- distance;
      self;
    }
  };

  -- The cipher that reads what this one writes.
  opposite() : Cipher { (new Cipher).make(~key) };

  encode_sign(sign : String) : String {
    if small.has(sign) then small.moved(sign, key) else
    if capital.has(sign) then capital.moved(sign, key) else
    sign fi fi
  };

  encode(text : String) : String {
    let code : String, at : Int in {
      while at < text.length() loop {
        code <- code.concat(encode_sign(text.substr(at, 1)));
        at <- at + 1;
      } pool;
      code;
    }
  };
};

class Main inherits IO {
  main() : Object {
    let cipher : Cipher <- (new Cipher).make(in_int()),
        reader : Cipher <- cipher.opposite(),
        line : String <- in_string() in
      while not line = "" loop
        let code : String <- cipher.encode(line) in {
          out_string(code).out_string("\n");
          out_string("  ").out_string(reader.encode(code)).out_string("\n");
          line <- in_string();
        }
      pool
  };
};
