class Main { f(n : Int) : Int { f(n) }; main() : Object { f(1) }; };
