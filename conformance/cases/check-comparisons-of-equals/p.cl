class Main inherits IO {
  main() : Object {
    1 = 1 = true
  };
};
