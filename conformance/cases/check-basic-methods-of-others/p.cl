class A { };
class Main {
  f() : Object { "abc".out_int(1) };
  g() : Object { 1.length() };
  h() : Object { (new IO).substr(1, 2) };
  i() : Object { (new A).in_int() };
  j() : Object { self.out_string("a") };
  k() : Object { (new Object).concat("a") };
  main() : Object { (new A).copy().type_name().length() };
};
