class Main inherits IO {
  add(a : Int, b : Int) : Int { a + b };
  main() : Object { out_int(add(1,2)) };
};
