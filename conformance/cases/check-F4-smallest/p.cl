class A { f(x : Int, x : Int) : Int { 1 }; };
class Main { main() : Object { 0 }; };
