class Int { };
class A inherits Z { };
class A { };
class A { };
class Main { main() : Object { 0 }; };
