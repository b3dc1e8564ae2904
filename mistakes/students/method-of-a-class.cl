class Math {
  square(n : Int) : Int { n * n };
  cube(n : Int) : Int { n * n * n };
};
class Main inherits IO {
  main() : Object {
    out_int(Math.cube(3))
  };
};
