class A { f() : Int { 1 }; f : Int; f() : Bool { true }; };
class B inherits A { f() : Bool { true }; f() : Int { 1 }; };
class Main { main() : Object { 0 }; };
