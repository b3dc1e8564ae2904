class A { self : Int; };
class Main { main() : Object { 0 }; };
