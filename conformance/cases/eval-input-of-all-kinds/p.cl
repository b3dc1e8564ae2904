class Main inherits IO {
  main() : Object { {
    out_int(in_int()); out_string(",");
    out_int(in_int()); out_string(",");
    out_string(in_string()); out_string(",");
    out_string(in_string()); out_string(",");
    out_string(in_string()); out_int(in_int());
  } };
};
