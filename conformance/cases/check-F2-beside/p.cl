class A { x : Int; };
class B inherits A { };
class C inherits B { x : Bool; x() : Int { 1 }; self : Int; };
class Main { main() : Object { 0 }; };
