class Main inherits B {
  main() : Int { 1 };
};
class B inherits A {
};
class A {
  self : Int;
  f(
    self : Int,
    self : Int
  ) : Int { 1 };
  g(
    a : Int,
    b : Int,
    a : Int
  ) : Int { 1 };
};
