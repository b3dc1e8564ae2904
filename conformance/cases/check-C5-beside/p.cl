class A inherits B { };
class B inherits A { };
class C inherits A { };
class IO inherits D { };
class D inherits IO { };
class Main { main() : Object { 0 }; };
