class A { };
class A { };
class Main { main() : Object { 0 }; };
