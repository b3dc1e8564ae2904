class Main inherits IO {
  o : Main;
  main() : Object {
    out_int(~{ out_string("right\n"); ~2147483647 - 1; })
  };
};
