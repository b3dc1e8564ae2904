class Main inherits IO {
  main() : Object {
    new Object = "a"
  };
};
