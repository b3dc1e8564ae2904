class Main inherits B {
  main() : Int { 1 };
  f(z : Bool) : Int { 1 };
};
class B inherits A {
  f(y : Bool) : Int { 1 };
  g(x : Missing) : Int { 1 };
  h() : Bool { true };
  h() : Bool { true };
  k() : Int { 1 };
};
class A {
  f(x : Int) : Int { 1 };
  g(y : Missing) : Int { 1 };
  h(x : Int) : Bool { true };
  k() : Int { 1 };
  k() : Bool { true };
};
