class Main inherits IO {
  Int square(Int n) {
    n * n
  };
  main() : Object {
    out_int(square(4))
  };
};
