class A {
  x : Int;
  f() : Int { y };
  g() : Int { "s" };
};
class B inherits A { h() : Bool { 1 + true }; };
class C inherits B { x : Int; };
class Main { main() : Object { self }; };
