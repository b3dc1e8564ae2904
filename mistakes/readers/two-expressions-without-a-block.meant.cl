class Main inherits IO {
  main() : Object { {
    out_string("a");
    out_string("b");
  } };
};
