class Base inherits IO {
  main() : Object { out_string("inherited\n") };
};

class Main inherits Base {
  run() : Object { main() };
};
