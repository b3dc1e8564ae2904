class Main inherits IO {
  min : Int <- ~2147483647 - 1;
  max : Int <- 2147483647;
  main() : Object { {
    out_string("before\n");
    out_int(min + ~1);
    out_string("after\n");
  } };
};
