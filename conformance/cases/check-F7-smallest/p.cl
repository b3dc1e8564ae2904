class A { f() : Int { 1 }; };
class B inherits A { f() : Bool { true }; };
class Main { main() : Object { 0 }; };
