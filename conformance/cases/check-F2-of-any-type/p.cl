class Main {
  main() : Int { 1 };
};
class A { x : Int; };
class B inherits A { };
class C inherits B {
  x : Int;
};
