class Main { main() : Object { not not 1 }; b() : Object { not (1 = true) }; };
