class A inherits Int { };
class Main { main() : Object { 0 }; };
