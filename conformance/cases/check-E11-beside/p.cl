class Main { main() : Object { let x : Nope <- 1 in zz }; b() : Object { case 1 of x : Nope => zz; esac }; c : SELF_TYPE <- new SELF_TYPE; };
