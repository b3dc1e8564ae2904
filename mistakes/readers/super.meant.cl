class A { f() : Int { 1 }; };
class B inherits A { f() : Int { self@A.f() + 1 }; };
class Main { main() : Object { 0 }; };
