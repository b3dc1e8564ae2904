class A { };
class B inherits A { };
class C inherits B { };
class D inherits A { };
class Main {
  b() : B { if true then new B else new C fi };
  a() : A { if true then new C else new D fi };
  o() : Object { if true then 1 else "a" fi };
  i() : Int { if true then 1 else 2 fi };
  s() : SELF_TYPE { if true then self else new SELF_TYPE fi };
  m() : Main { if true then self else new Main fi };
  t() : SELF_TYPE { if true then self else new Main fi };
  c() : C { if true then new C else new B fi };
  d() : B { if true then new C else new D fi };
  e() : B { case 1 of x : Int => new B; y : Object => new C; esac };
  f() : B { case 1 of x : Int => new B; y : Object => new D; esac };
  main() : Object { 0 };
};
