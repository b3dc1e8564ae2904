class Main inherits IO {
  min : Int <- ~2147483647 - 1;
  main() : Object { {
    out_int(min / ~1); out_string(" ");
    out_int(~min); out_string(" ");
    out_int(7 / ~2); out_string(" ");
    out_int(min - 1); out_string("\n");
    out_int(1 / (min - min));
  } };
};
