class Main {
  x : Object;
  y : A;
  main() : Int { if x <- true then x <- 0 else 0 fi };
  f() : B { y <- new B };
};
class A { };
class B inherits A { };
