class A { f() : Int { 1 }; f() : Int { 2 }; };
class Main { main() : Object { 0 }; };
