class Main { a : Int; main() : Object { a.show(zz) }; b() : Object { a.show(1) }; };
