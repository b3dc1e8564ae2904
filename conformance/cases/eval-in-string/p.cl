-- A line for each string: its bytes and their number.
class Main inherits IO {
  main() : Object {
    let i : Int, s : String in while i < 22 loop {
      s <- in_string();
      out_string("[").out_string(s).out_string("] ").out_int(s.length()).out_string("\n");
      i <- i + 1;
    } pool
  };
};
