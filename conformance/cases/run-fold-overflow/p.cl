class Main inherits IO { main() : Object { out_int(2147483647 + 1) }; };
