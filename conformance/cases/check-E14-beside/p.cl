class Main { main() : Object { true + zz }; b() : Object { ~ "a" }; c() : Object { 1 <= true }; d() : Object { "a" < 1 }; };
