class Main inherits IO {
  main() : Object { { out_string("one\n"); (new Two).run(6, 0); } };
};
