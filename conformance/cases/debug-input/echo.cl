class Main inherits IO {
  main() : Object { { out_int(in_int() + 1); out_string(in_string()); out_string("\n"); } };
};
