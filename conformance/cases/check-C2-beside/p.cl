class SELF_TYPE inherits SELF_TYPE { };
class SELF_TYPE { };
class Main { main() : Object { 0 }; };
