class A { };
class Main { main() : Object { self = new A }; b() : Object { self = "a" }; c() : Object { "a" = zz }; };
