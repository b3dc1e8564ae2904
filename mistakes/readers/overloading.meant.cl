class A { f(n : Int) : Int { n }; };
class B inherits A { g(s : String) : Int { 1 }; };
class Main { main() : Object { 0 }; };
