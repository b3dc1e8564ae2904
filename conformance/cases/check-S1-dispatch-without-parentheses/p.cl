class Main inherits IO {
  main() : Object {
    self.f
  };
};
class A { f() : Int { 1 }; };
