class Main inherits IO {
  n : Int;
  main() : Object {
    { n <- 5; out_int(n); }
  };
};
