class Main inherits IO {
  main() : Object { { out_string("before\n"); out_int(1 / 0); } };
};
