class Main inherits IO {
  main() : Object {
    self@Paint.copy()
  };
};
