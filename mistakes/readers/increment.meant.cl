class Main inherits IO {
  i : Int;
  main() : Object { { i <- i + 1; out_int(i); } };
};
