class Main { main() : Object { "a
" }; }; _
