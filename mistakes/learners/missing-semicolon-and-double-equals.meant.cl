class Hangman {
  secret : String <- "cobra";
  lives : Int <- 6;
  guess(s : String, i : Int) : Bool {
    if secret.substr(i, 1) = s then true else { lives <- lives - 1; false; } fi
  };
};
class Main inherits IO {
  main() : Object {
    if (new Hangman).guess("b", 2) then out_string("hit") else out_string("miss") fi
  };
};
