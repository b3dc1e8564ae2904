class Main { main() : Object { x }; };
