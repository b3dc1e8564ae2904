class Main inherits Two { main() : Object { cut("word") }; };
