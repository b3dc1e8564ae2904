class A { f() : Int { 4 }; };
class Main inherits IO { main() : Object { out_int((new A).f()) }; };
