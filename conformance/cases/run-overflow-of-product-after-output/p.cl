class Main inherits IO {
  o : Main;
  main() : Object {
    out_int(65536 * { out_string("right\n"); 32768; })
  };
};
