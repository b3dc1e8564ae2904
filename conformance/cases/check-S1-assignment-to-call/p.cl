class Main inherits IO {
  main() : Object {
    f() <- 1
  };
};
class A { f() : Int { 1 }; };
