class Clicker {
  clicks : Int <- 0;
  click() : Int { clicks++ };
  total() : Int { clicks };
};
class Main inherits IO {
  c : Clicker <- new Clicker;
  i : Int <- 0;
  main() : Object {
    {
      while i < 8 loop { c.click(); i <- i + 1; } pool;
      out_int(c.total());
    }
  };
};
