class A { }; class Main inherits A { main() : Object { abort() }; };
