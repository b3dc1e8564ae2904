class P { x : Int <- 4; x() : Int { x }; };
class Main inherits IO { main() : Object { let p : P <- new P in out_int(p.x()) }; };
