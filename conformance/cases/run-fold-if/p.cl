class Main inherits IO { main() : Object { out_int(if true then 1 else 2 fi) }; };
