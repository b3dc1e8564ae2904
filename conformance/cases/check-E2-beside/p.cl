class Main { main() : Object { self <- zz }; a : Object <- self <- 1; };
