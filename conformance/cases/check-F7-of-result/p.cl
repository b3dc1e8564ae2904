class Main {
  main() : Int { 1 };
};
class A { f() : Object { 1 }; };
class B inherits A {
  f() : Int { 1 };
};
