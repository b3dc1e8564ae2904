class Main inherits IO {
  -- prints
  main() : Object { out_string("x") };
};
