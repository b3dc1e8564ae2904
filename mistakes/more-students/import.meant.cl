class Animal {
  legs() : Int { 4 };
};
class Main inherits IO {
  main() : Object {
    out_int((new Animal).legs())
  };
};
