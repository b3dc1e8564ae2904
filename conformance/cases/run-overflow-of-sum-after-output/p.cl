class Main inherits IO {
  o : Main;
  main() : Object {
    out_int(2147483647 + { out_string("right\n"); 1; })
  };
};
