class Main inherits IO {
  main() : Object { {
    out_int(0 - 2147483647 - 1); out_string("\n");
    out_int(65536 * 32767); out_string("\n");
    out_int(~0); out_string("\n");
  } };
};
