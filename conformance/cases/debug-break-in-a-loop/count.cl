class Main inherits IO {
  left : Int <- 3;
  lower() : Object { left <- left - 1 };
  main() : Object { { while 0 < left loop lower() pool; out_int(left); out_string("\n"); } };
};
