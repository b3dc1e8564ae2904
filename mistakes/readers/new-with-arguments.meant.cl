class A { x : Int; init(n:Int) : A { { x <- n; self; } }; };
class Main inherits IO { main() : Object { let a : A <- (new A).init(5) in 0 }; };
