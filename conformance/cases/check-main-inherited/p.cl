class Main inherits A {
  main : Int;
};
class A {
  main() : Int { 1 };
};
