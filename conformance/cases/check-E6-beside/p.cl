class Main { m(x : Int, y : Int) : Int { x }; main() : Object { m(true,
 "b" + 1) }; b() : Object { m(1,
 "b") }; };
