class Main { a : Int; m(x : Int) : SELF_TYPE { self }; main() : Object { let x : B <- 1 in x }; };
