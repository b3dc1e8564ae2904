class Main { a : Int; m(x : Int) : SELF_TYPE { self }; main() : Object { case a of y : Int => 1; z : Int => 2; esac }; };
