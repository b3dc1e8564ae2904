class Countdown inherits IO {
  from : Int;
  init(n : Int) : Countdown { { from <- n; self; } };
  run() : Object {
    {
      while 0 < from loop {
        out_int(from);
        out_string(" ");
        from <- from - 1;
      } pool;
      out_string("lift off\n");
    }
  };
};
class Main {
  main() : Object { (new Countdown).init(10).run() };
};
