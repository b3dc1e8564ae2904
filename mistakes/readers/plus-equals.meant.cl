class Main inherits IO {
  i : Int;
  main() : Object { { i <- i + 2; out_int(i); } };
};
