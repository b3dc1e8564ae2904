class Segment {
  length(from : Int, from : Int) : Int {
    from - from
  };
};
class Main inherits IO {
  main() : Object {
    let s : Segment <- new Segment in out_int(s.length(12, 40))
  };
};
