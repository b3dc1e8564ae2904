class Main inherits IO {
  depth(n : Int) : Int { 1 + depth(n) };
  main() : Object { { out_string("down\n"); out_int(depth(1)); } };
};
