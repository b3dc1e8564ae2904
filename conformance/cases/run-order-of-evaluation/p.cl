-- Each part writes its letter when it is evaluated.
class A inherits IO {
  f(x : Int, y : Int, z : Int) : Int { { out_string("f"); x * 100 + y * 10 + z; } };
};
class B inherits A { };
class Main inherits IO {
  v : Int;
  n(name : String, x : Int) : Int { { out_string(name); x; } };
  b(name : String, x : Bool) : Bool { { out_string(name); x; } };
  o(name : String, x : B) : B { { out_string(name); x; } };
  line(x : Object) : Object { out_string("\n") };
  g(x : Int, y : Int) : Int { { out_string("g"); x - y; } };
  main() : Object { {
    line(o("receiver ", new B).f(n("first ", 1), n("second ", 2), n("third ", 3)));
    line(o("receiver ", new B)@A.f(n("first ", 1), n("second ", 2), n("third ", 3)));
    line(g(n("a ", 1), g(n("b ", 2), n("c ", 3))));
    line(g(g(n("a ", 1), n("b ", 2)), n("c ", 3)));
    line(n("left ", 1) + n("right ", 2));
    line(n("left ", 1) - n("right ", 2));
    line(n("left ", 1) * n("right ", 2));
    line(n("left ", 1) / n("right ", 2));
    line(n("left ", 1) < n("right ", 2));
    line(n("left ", 1) <= n("right ", 2));
    line(n("left ", 1) = n("right ", 2));
    line(n("a ", 1) + n("b ", 2) * n("c ", 3) - n("d ", 4));
    line(if b("test ", true) then n("yes ", 1) else n("no ", 2) fi);
    line(if b("test ", false) then n("yes ", 1) else n("no ", 2) fi);
    line(let x : Int <- n("x ", 1), y : Int <- n("y ", 2) in n("body ", x + y));
    line({ n("1 ", 1); n("2 ", 2); n("3 ", 3); });
    line(case n("value ", 1) of i : Int => n("branch ", i); esac);
    line(while b("test ", v < 2) loop v <- n("body ", v + 1) pool);
    out_int(v + (v <- 10) + v).out_string("\n");
    out_int(g(v, v <- 3)).out_string("\n");
    out_int(g(v <- 4, v)).out_string("\n");
  } };
};
