class Main inherits IO {
  double(s : String) : String { double(s.concat(s)) };
  main() : Object { { out_string("grow\n"); out_string(double("x")); } };
};
