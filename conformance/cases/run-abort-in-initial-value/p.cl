class A inherits IO {
  a : Int <- { out_string("a\n"); 1; };
  b : Object <- { out_string("b\n"); abort(); };
  c : Int <- { out_string("c\n"); 1; };
};
class Main inherits A { main() : Object { out_string("main\n") }; };
