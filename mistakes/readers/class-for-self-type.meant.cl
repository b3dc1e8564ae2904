class A { make() : SELF_TYPE { new SELF_TYPE }; };
class Main { main() : Object { 0 }; };
