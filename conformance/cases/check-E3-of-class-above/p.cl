class Main {
  main() : Int { 1 };
  z : A;
  f() : Object { z <- new Object };
};
class A { };
