class Main { main() : Int { true }; };
