class Main inherits B {
  main() : Int { 1 };
};
class B inherits A {
};
class A {
  copy() : Object { self };
  abort() : Object { self };
  type_name(x : Int) : String { "" };
  out_int() : Int { 1 };
};
