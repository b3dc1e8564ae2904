class A { next : A <- new A; };
class Main { main() : Object { new A }; };
