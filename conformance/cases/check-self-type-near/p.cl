class Main {
  main() : Int { 1 };
};
class A inherits IO {
  a : SELF_TYPE;
  f() : SELF_TYPE { copy() };
  g() : SELF_TYPE { let x : SELF_TYPE <- f() in { a <- x; a <- self; new SELF_TYPE; } };
  h() : A { self };
  out_int(x : Int) : SELF_TYPE { self@IO.out_int(x) };
  i() : B { (new B).f().g()@A.f() };
  j(x : A, y : Object) : Bool { j(self, new SELF_TYPE) };
};
class B inherits A { };
