class A { x : SELF_TYPE; f(x : SELF_TYPE, y : Z) : SELF_TYPE { self }; };
class Main { main() : Object { 0 }; };
