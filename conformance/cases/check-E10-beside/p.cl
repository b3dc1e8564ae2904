class Main { main() : Object { let self : Nope <- zz in 1 }; b() : Object { case 1 of self : Nope => 1; esac }; };
