class Main inherits IO {
  main() : Object {
    for (i = 0; i < 10; i++) {
      out_int(i);
      out_string(" ");
    }
  };
};
