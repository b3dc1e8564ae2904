class Main inherits IO {
  main() : Object {
    while
      "x"
    loop 1 pool
  };
};
