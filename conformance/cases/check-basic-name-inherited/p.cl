class Object inherits A { };
class IO { out_string(x : Int) : Int { x }; };
class A inherits Object { };
class B inherits IO { };
class Main { main() : Object { 0 }; };
