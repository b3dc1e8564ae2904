class A inherits A { };
class Main { main() : Object { 0 }; };
