class Main inherits IO {
  n : Int <- 5;
  main() : Object { out_int(n) };
};
