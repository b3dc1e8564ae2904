class Main {
  main() : Int { 1 };
};
class A { f(x : Int) : Int { 1 }; };
class B inherits A {
  f(x : Object) : Int { 1 };
};
