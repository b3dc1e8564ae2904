class A { f() : Int { 1 }; };
class Main inherits IO { main() : Object { out_int((new A).f()) }; };
