class Main { main() : Object { 0 }; };
class C inherits A { };
class A inherits B { };
class B inherits A { };
class D inherits D { };
class E inherits C { };
