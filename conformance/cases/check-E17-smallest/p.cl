class Main { a : Int; m(x : Int) : SELF_TYPE { self }; main() : Object { let y : Bool <- a in y }; };
