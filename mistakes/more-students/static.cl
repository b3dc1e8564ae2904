class Main inherits IO {
  static square(n : Int) : Int {
    n * n
  };
  main() : Object {
    out_int(square(5))
  };
};
