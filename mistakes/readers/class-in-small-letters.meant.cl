class Stack { f() : Int { 1 }; };
class Main { s : Stack; main() : Object { 0 }; };
