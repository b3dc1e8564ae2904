class Main { a : Int; m(x : Int) : SELF_TYPE { self }; main() : Object { self@Main.zz() }; };
