class Main inherits IO {
  say(text : String, x : Int) : Int { { out_string(text); x; } };
  main() : Object {
    let n : Int <- 3 in
      while true loop {
        out_int(
          say("12 by ", 12)
          / say("n: ", n)).out_string("\n");
        n <- n - 1;
      } pool
  };
};
