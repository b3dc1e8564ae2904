class Main inherits IO {
  main() : Object {
    (3 *)4)
  };
};
