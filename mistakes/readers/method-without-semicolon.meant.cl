class Main inherits IO {
  f() : Int { 1 };
  main() : Object { out_int(f()) };
};
