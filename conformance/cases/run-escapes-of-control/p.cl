class Main inherits IO {
  main() : Object {
    { out_string("a\bb\tc\nd\fe"); out_int("\b\t\n\f\\b".length()); }
  };
};
