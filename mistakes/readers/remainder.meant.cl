class Main inherits IO {
  main() : Object { out_int(7 - 7 / 2 * 2) };
};
