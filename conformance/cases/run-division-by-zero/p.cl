class Main { main() : Object { 1 / 0 }; };
