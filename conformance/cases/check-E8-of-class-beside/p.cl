class Main inherits IO {
  main() : Object {
    { type_name()@Main.copy(); 0; }
  };
};
