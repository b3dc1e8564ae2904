class Main { main() : Object { while true loop new Object pool }; };
