class Main {
  main() : Int { 1 };
  y() : A { if true then new A else "x" fi };
};
class A { };
