class Clock {
  minutes : Int;
  set(h : Int, m : Int) : Clock { { minutes <- h * 60 + m; self; } };
  hour() : Int { minutes / 60 };
  later(m : Int) : Clock { (new Clock).set(0, minutes + m) };
};
class Main inherits IO {
  main() : Object {
    let c : Clock <- (new Clock).set(7, 45) in
      out_int(c.later(30).hour())
  };
};
