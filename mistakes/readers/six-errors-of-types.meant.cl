class Y {
  foo() : Object { 0 };
};
class Main inherits IO {
  x : Int;
  y : Y <- new Y;
  main() : Object { {
    out_int(1);
    out_string("a");
    x <- 3;
    y.foo();
    if not 3 = 0 then 1 else 2 fi;
  } };
  g() : String { "a" };
};
