class Main { main() : Object { case 1 of x : Int => zz; y : SELF_TYPE => 1; esac }; b() : Object { case 1 of x : SELF_TYPE => 1; x : Nope => 1; esac }; };
