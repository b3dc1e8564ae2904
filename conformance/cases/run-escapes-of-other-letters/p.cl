class Main inherits IO {
  main() : Object {
    out_string("\a\c\z\A\9\0\'\(\"\\\-")
  };
};
