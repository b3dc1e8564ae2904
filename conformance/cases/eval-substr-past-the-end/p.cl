class Main inherits IO {
  main() : Object { {
    out_int("abc".substr(3, 0).length());
    out_string("abc".substr(1, 2));
    out_string("abc".substr(1, 3));
  } };
};
