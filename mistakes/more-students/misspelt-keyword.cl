class Animal {
  legs() : Int { 4 };
};
class Dog inherit Animal {
  age : Int <- 3;
};
class Main inherits IO {
  main() : Object { out_int((new Dog).legs()) };
};
