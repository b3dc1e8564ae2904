class Main inherits IO { main() : Object { { out_string("n? "); out_int(in_int()); } }; };
