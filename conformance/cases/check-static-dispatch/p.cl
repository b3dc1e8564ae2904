class A {
  f() : SELF_TYPE { self };
  g() : Int { 1 };
};
class B inherits A {
  g() : Int { self@A.g() };
  h() : SELF_TYPE { self@A.f() };
  i() : B { (new B)@A.f() };
  j() : SELF_TYPE { (new B)@A.f() };
  k(other : A) : Int { other@B.g() };
  l() : String { self@Object.type_name() };
  m() : Int { self@B.g() + self.g() };
  n(a : A) : A { { a <- new B; a <- self; a@A.f(); } };
};
class Main { main() : Object { 0 }; };
