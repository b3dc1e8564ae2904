class A { };
class B inherits A { };
class Main { main() : Object { 0 }; };
