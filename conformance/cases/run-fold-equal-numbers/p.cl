class Main inherits IO { main() : Object { if 3 = 3 then out_string("equal") else out_string("not equal") fi }; };
