class Main inherits IO {
  n : Int <- 3;
  main() : Object {
    if (n < 5) {
      out_string("small\n");
    } else {
      out_string("large\n");
    }
  };
};
