class Main { a : Int; m(x : Int) : SELF_TYPE { self }; main() : Object { case a of y : SELF_TYPE => 1; esac }; };
