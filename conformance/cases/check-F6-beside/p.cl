class A { x : B; y : SELF_TYPE; f(z : B, u : SELF_TYPE) : C { 1 }; x : B; };
class Main { main() : Object { 0 }; };
