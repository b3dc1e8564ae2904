class A { f(x : SELF_TYPE) : Int { 1 }; };
class Main { main() : Object { 0 }; };
