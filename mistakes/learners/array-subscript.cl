class Text inherits IO {
  spell(s : String) : Object {
    let i : Int <- 0 in
      while i < s.length() loop {
        out_string(s[i]);
        out_string("-");
        i <- i + 1;
      } pool
  };
};
class Main { main() : Object { (new Text).spell("kitten") }; };
