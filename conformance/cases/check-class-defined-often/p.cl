class Main { main() : Object { 0 }; };
class A { };
class A { };
class A { };
class Object { };
