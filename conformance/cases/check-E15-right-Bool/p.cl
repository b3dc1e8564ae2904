class Main inherits IO {
  main() : Object {
    new Object = true
  };
};
