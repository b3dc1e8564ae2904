class Main inherits B {
  main() : Int { 1 };
};
class B inherits A {
  f(x : Int) : Int { 1 };
  f : Int;
  f(y : Int) : Int { 1 };
  self() : SELF_TYPE { self };
};
class A {
  f(z : Int) : Int { 1 };
};
