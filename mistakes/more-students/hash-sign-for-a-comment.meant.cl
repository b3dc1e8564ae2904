class Main inherits IO {
  -- prints a greeting
  greet(name : String) : Object {
    out_string("Hello ".concat(name))
  };
  main() : Object {
    greet("Ada")
  };
};
