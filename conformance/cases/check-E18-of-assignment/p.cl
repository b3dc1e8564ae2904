class Main {
  main() : Int { 1 };
  y : Object;
  f() : B { y <- new A };
};
class A { };
class B inherits A { };
