class Main inherits IO { main() : Object { if 2 <= 1 then out_string("less or equal") else out_string("greater") fi }; };
