class Main inherits IO { main() : Object { out_int(65536 * 32768) }; };
