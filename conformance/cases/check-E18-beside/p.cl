class Main { main() : Object { 1 }; b() : Int { "s" + 1 }; c() : Int { "s" }; d() : SELF_TYPE { new Main }; };
