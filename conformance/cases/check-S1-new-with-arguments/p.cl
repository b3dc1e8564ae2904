class Main inherits IO {
  main() : Object {
    new Main(1)
  };
};
class A { f() : Int { 1 }; };
