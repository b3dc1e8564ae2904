class Main { main() : Object { { x; y; } }; b : Int <- y; };
