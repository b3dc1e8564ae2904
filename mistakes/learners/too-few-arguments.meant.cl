class Span {
  clamp(n : Int, low : Int, high : Int) : Int {
    if n < low then low else if high < n then high else n fi fi
  };
};
class Main inherits IO {
  main() : Object {
    let s : Span <- new Span in {
      out_int(s.clamp(15, 0, 10));
      out_int(s.clamp(~3, 0, 10));
    }
  };
};
