class Main inherits IO {
  main() : Object {
    "a" = self
  };
};
