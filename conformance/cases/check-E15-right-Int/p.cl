class Main inherits IO {
  main() : Object {
    new Object = 1
  };
};
