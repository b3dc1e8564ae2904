class Main inherits IO { main() : Object { if true = false then out_string("equal") else out_string("not equal") fi }; };
