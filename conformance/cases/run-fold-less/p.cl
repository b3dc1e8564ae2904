class Main inherits IO { main() : Object { if 1 < 2 then out_string("less") else out_string("not less") fi }; };
