class SELF_TYPE { };
class Main { main() : Object { 0 }; };
