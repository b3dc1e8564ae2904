class Main inherits B {
  main() : Int { 1 };
};
class B inherits A {
};
class A {
  f(x :
      SELF_TYPE) :
    SELF_TYPE { self };
  g(x :
      Missing) :
    Main { new Main };
  h() :
    Missing { 1 };
  x :
    Missing;
  y :
    SELF_TYPE;
};
