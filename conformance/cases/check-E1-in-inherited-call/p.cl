class Main {
  main() : Int { 1 };
};
class A {
  f() : Int { zz };
};
