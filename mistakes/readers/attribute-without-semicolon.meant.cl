class Main inherits IO {
  n : Int <- 3;
  main() : Object { out_int(n) };
};
