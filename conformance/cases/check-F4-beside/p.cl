class A { f(x : Int, y : Z, x : SELF_TYPE, x : Int) : Int { 1 }; };
class Main { main() : Object { 0 }; };
