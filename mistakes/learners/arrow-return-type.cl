class Cube {
  edge : Int <- 3;
  volume() -> Int { edge * edge * edge };
  surface() : Int { 6 * edge * edge };
};
class Main inherits IO {
  main() : Object {
    let c : Cube <- new Cube in { out_int(c.volume()); out_int(c.surface()); }
  };
};
