class Bool inherits Bool { };
class B inherits Int { };
class B inherits String { };
class Main { main() : Object { 0 }; };
