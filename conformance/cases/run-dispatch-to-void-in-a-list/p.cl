class Cell {
  head : Int; tail : Cell;
  put(h : Int, t : Cell) : Cell { { head <- h; tail <- t; self; } };
  head() : Int { head };
  tail() : Cell { tail };
};
class Main inherits IO {
  main() : Object {
    let c : Cell <- (new Cell).put(1, (new Cell).put(2, (new Cell).put(3, let end : Cell in end))) in
      while true loop {
        out_int(c
          .head()).out_string("\n");
        c <- c.tail();
      } pool
  };
};
