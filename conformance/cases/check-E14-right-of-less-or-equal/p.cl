class Main inherits IO {
  main() : Object {
    1 <=
      "a"
  };
};
