class A inherits B { };
class Main { main() : Object { 0 }; };
