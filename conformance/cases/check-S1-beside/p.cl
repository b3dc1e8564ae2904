class A { f( : Int { 1 }; };
class Main { main() : Object { ) }; };
