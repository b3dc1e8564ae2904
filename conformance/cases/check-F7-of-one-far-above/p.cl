class Main {
  main() : Int { 1 };
};
class C inherits B {
  f(x : Int, y : Object) : Int { 1 };
};
class B inherits A { };
class A { f(x : Int, y : Int) : Int { 1 }; };
