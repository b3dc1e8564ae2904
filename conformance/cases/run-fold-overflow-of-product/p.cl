class Main inherits IO {
  main() : Object { {
    out_int(65536 * 32767);
    out_string("\n");
    out_int(65536
      * ~32769);
  } };
};
