class A { a : Int; f() : Int { 1 }; };
class B inherits A { b : Bool; f() : Int { 2 }; };
class Main inherits IO { main() : Int { 1 }; };
