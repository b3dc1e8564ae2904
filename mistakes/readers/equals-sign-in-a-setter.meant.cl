class P { x : Int; setX(v : Int) : Object { x <- v }; getX() : Int { x }; };
class Main inherits IO { main() : Object { let p : P <- new P in { p.setX(3); out_int(p.getX()); } }; };
