class Main inherits IO {
  main() : Object { { out_string("on\n"); while true loop 0 pool; } };
};
