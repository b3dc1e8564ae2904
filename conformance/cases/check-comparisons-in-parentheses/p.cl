class Main inherits IO {
  main() : Object {
    { (1 = 1) = true; (1 < 2) = (2 <= 3); not 1 < 2; true = (not 1 = 2); }
  };
};
