class Counter {
  n : Int <- 0;
  inc() : Int { n -> n + 1 };
  reset() : Int { n <- 0 };
  value() : Int { n };
};
class Main inherits IO {
  c : Counter <- new Counter;
  main() : Object {
    {
      c.inc();
      c.inc();
      out_int(c.value());
      c.reset();
    }
  };
};
