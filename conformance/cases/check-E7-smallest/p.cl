class Main { a : Int; m(x : Int) : SELF_TYPE { self }; main() : Object { self@SELF_TYPE.m(1) }; };
