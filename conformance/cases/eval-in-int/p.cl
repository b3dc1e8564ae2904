-- A line for each number, and 0 at the end of the input.
class Main inherits IO {
  main() : Object {
    let i : Int in while i < 42 loop { out_int(in_int()).out_string("\n"); i <- i + 1; } pool
  };
};
