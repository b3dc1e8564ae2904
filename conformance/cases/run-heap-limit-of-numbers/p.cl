class Main inherits IO {
  i : Int;
  main() : Object { { out_string("count\n"); while true loop i <- 0 - 1 pool; out_string("end\n"); } };
};
