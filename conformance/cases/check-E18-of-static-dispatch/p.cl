class Main {
  main() : Int { 1 };
  y() : B { (new A)@A.f() };
};
class A { f() : SELF_TYPE { self }; };
class B inherits A { };
