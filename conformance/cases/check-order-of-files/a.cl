class A { f() : Bool { 1 }; };
class Main { main() : Object { 0 }; };
