class A inherits E { };
class Below inherits C { };
class B inherits A { };
class C inherits B { };
class Lower inherits Below { };
class D inherits C { };
class E inherits D { };
class Apart inherits IO { };
class Main { main() : Object { 0 }; };
