class Main inherits IO { main() : Object { if "ab" = "ac" then out_string("equal") else out_string("not equal") fi }; };
