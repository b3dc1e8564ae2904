class A inherits IO { abort() : Object { out_string("no end\n") }; };
class B inherits A { abort() : Object { { self@A.abort(); out_string("no end here\n"); } }; };
class Main inherits IO {
  main() : Object { { (new A).abort(); (new B).abort(); (new B)@A.abort(); out_string("on\n"); (new A)@Object.abort(); } };
};
