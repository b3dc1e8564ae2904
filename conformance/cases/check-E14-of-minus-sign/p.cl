class Main inherits IO {
  main() : Object {
    ~
      true
  };
};
