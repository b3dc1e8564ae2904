class Main inherits B {
  main() : Int { 1 };
  x : Bool;
  y() : Int { 1 };
};
class B inherits A {
  y : Int;
  y : Int;
};
class A {
  x : Int;
};
