class A { x : Int; x : Int; };
class Main { main() : Object { 0 }; };
