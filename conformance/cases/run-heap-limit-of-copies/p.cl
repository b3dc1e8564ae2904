class A { a : Int; b : String; c : A; };
class Main inherits IO {
  main() : Object { let a : A <- new A in { out_string("copy\n"); while not isvoid a loop a <- a.copy() pool; } };
};
