class Bell inherits IO {
  ring(n : Int) : Object {
    let i : Int <- 0 in
      while i < n loop { out_string("ding "); i <- i + 1; } pool
  };
};
class Main {
  main() : Object {
    let b : Bell <- new Bell in b.ring(4)
  };
};
