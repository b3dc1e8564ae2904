class Main inherits IO {
  say(text : String, x : Int) : Int { { out_string(text); x; } };
  main() : Object {
    let word : String <- "word" in
      while true loop {
        out_string({ out_string("receiver "); word; }
          .substr(
            say("from ", 1),
            say("bytes ", word.length() - 1)));
        out_string("\n");
        word <- word.substr(0, word.length() - 1);
      } pool
  };
};
