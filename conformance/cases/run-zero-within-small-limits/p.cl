class Main { main() : Object { 0 }; };
