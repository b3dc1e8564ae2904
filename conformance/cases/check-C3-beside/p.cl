class A inherits B { x : Missing; };
class C inherits A { };
class Main { main() : Object { 0 }; };
