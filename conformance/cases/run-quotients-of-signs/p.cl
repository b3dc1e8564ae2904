class Main inherits IO {
  t(n : Int) : Object { out_int(n).out_string(" ") };
  main() : Object {
    { t(7 / 2); t(~7 / 2); t(7 / ~2); t(~7 / ~2); t(~1 / 2); t(1 / ~2); t(0 / ~3); t(~6 / 3); t(7 - 7 / 2 * 2); t(~7 - ~7 / 2 * 2); }
  };
};
