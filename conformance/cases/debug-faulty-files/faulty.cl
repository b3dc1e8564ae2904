class Main { main() : Int { "a" }; };
