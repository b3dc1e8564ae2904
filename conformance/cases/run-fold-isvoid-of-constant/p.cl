class Main inherits IO { main() : Object { if isvoid "" then out_string("void") else out_string("no void") fi }; };
