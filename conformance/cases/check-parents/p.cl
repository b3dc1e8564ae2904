class Main { main() : Object { 0 }; };
class A inherits
  Missing { };
class B inherits
  Int { };
class C inherits
  Bool { };
class D inherits
  String { };
class E inherits
  IO { };
class F inherits
  Object { };
