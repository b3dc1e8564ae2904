class A { x : B; };
class Main { main() : Object { 0 }; };
