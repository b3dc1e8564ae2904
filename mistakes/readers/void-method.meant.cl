class Main inherits IO {
  f() : Object { out_string("x") };
  main() : Object { f() };
};
