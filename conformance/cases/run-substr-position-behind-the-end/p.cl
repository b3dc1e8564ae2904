class Main inherits IO { main() : Object { out_string("abc".substr(4, 0)) }; };
