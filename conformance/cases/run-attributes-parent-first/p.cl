class A inherits IO { a : Int <- { out_string("a"); 1; }; };
class Main inherits A {
  x : Int <- y + a;
  y : Int <- 5;
  main() : Object { out_int(x) };
};
