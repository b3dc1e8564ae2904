class A { };
class B inherits A { g() : Int { 1 }; };
class Main inherits IO { main() : Object { let a : B <- new B in out_int(a.g()) }; };
