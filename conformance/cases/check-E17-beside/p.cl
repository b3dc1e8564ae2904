class Main { a : SELF_TYPE <- new Main; b : Int <- zz; main() : Object { let x : Int <- "s", y : Nope in 1 }; };
