class A inherits IO { hi() : Object { out_string("hi\n") }; };
