class Main { main() : Object { case 1 of x : Int => 1; y : Bool => 2; self : Int => 3; esac }; b() : Object { case 1 of x : Int => x; y : Int => zz; esac }; };
