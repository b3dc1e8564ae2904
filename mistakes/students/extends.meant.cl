class Animal {
  legs() : Int { 4 };
};
class Bird inherits Animal {
  legs() : Int { 2 };
};
class Main inherits IO {
  main() : Object { out_int((new Bird).legs()) };
};
