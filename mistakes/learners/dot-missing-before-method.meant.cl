class Word {
  text : String;
  set(s : String) : Word { { text <- s; self; } };
  first() : String { if text.length() = 0 then "" else text.substr(0, 1) fi };
  last() : String { text.substr(text.length() - 1, 1) };
};
class Main inherits IO {
  main() : Object {
    let w : Word <- (new Word).set("lantern") in {
      out_string(w.first());
      out_string(w.last());
    }
  };
};
