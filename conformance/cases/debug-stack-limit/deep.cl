class Main inherits IO {
  down(n : Int) : Int { down(n + 1) + 1 };
  main() : Object { { out_string("down\n"); out_int(down(0)); } };
};
