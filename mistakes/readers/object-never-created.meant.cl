class P { x : Int; getX() : Int { x }; };
class Main inherits IO { p : P <- new P; main() : Object { out_int(p.getX()) }; };
