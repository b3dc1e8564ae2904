class Main { main() : Object { 1 ? 2 ! 3 }; };
