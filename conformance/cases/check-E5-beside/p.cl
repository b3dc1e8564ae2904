class Main { m(x : Int) : Int { x }; main() : Object { m(true, 1) }; b() : Object { m(true) }; };
