class Box { n : Int; };
class Main inherits IO {
  t(b : Bool) : Object { out_string(if b then "1" else "0" fi) };
  main() : Object {
    let a : Box <- new Box, b : Box <- a.copy(), c : Box <- b.copy(), d : Box <- new Box in {
      t(a = a); t(b = b); t(a = b); t(a = c); t(a = d); t(b = c); t(b = d); t(c = d);
    }
  };
};
