class Main inherits IO {
  main() : Object {
    new Paint
  };
};
