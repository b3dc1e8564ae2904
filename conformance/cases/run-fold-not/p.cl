class Main inherits IO { main() : Object { if not false then out_string("true") else out_string("false") fi }; };
