class Main inherits IO { s : String; main() : Object { out_string(s) }; };
