class Main { a : Int; m(x : Int) : SELF_TYPE { self }; main() : Object { if 1 then 2 else 3 fi }; };
