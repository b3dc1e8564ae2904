class A { self() : Int { 1 }; f(self : Int, self : Int) : Int { 1 }; };
class Main { main() : Object { 0 }; };
