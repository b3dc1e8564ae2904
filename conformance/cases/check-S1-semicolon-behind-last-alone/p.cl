class Main inherits IO {
  main() : Object {
    { 1; 2 }
  };
};
class A { f() : Int { 1 }; };
