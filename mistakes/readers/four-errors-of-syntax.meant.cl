class A {
  f() : Int { 1 + 2 };
  g() : Int { 2 };
};
class B {
  h() : Int { 3 };
};
class C {
  k() : Int { if not 1 = 0 then 2 else 0 fi };
};
class Main inherits IO {
  main() : Object { out_int(1) };
};
