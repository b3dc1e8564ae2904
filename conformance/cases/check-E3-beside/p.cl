class Main { a : SELF_TYPE; main() : Object { a <- new Main }; b : Int <- a <- self.q(); };
