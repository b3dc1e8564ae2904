class B {
  f() : Int { true };
  g() : Int { x };
};
