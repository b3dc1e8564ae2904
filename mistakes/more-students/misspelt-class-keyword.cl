Class Animal {
  legs() : Int { 4 };
};
klass Main inherits IO {
  main() : Object {
    out_int((new Animal).legs())
  };
};
