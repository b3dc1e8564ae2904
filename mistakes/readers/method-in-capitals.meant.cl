class Main inherits IO {
  count() : Int { 1 };
  main() : Object { out_int(count()) };
};
