class Main { main() : Object { 1@Nope.m() }; b() : Object { 1@String.nope() }; c() : Object { self@Object.copy(1) }; };
