class Main inherits IO {
  main() : Object {
    self <- self
  };
};
