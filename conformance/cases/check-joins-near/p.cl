class Main {
  main() : Int { if true then 1 else new Int fi };
};
class A {
  f() : SELF_TYPE { if true then self else self fi };
  g() : A { if true then self else new A fi };
  h() : A { case 1 of x : Int => new B; y : Bool => new C; z : Object => self; esac };
  i() : Object { if true then 1 else "a" fi };
};
class B inherits A { };
class C inherits A { j() : A { if false then new C else new B fi }; };
