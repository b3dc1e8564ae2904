-- Which operator takes which operands.
class Main inherits IO {
  a : Int; b : Int; c : Bool;
  n(x : Int) : Object { out_int(x).out_string("\n") };
  t(x : Bool) : Object { out_string(if x then "true\n" else "false\n" fi) };
  one() : Int { 1 };
  outward() : Object { out_int(let x : Int <- 1 in x + 1 * 2) };
  right() : Object { out_int(1 + let x : Int <- 2 in x * 3) };
  assigned() : Object { let x : Int in out_int(2 * x <- 1 + 3) };
  main() : Object { {
    outward(); right(); assigned(); out_string("\n");
    n(~1 + 2);
    n(~2 * 3);
    n(1 + 2 * 3 - 4 / 2);
    n(20 - 5 - 3);
    n(~one() + 1);
    n(~self.one());
    n(a <- b <- 4);
    n(a + b);
    n(2 * a <- 1 + 3);
    n(1 + let x : Int <- 2 in x * 3 + 1);
    n((let x : Int <- 2 in x) * 3 + 1);
    t(not 1 < 2);
    t(not 1 = 2);
    t(not not true);
    t(1 + 1 = 2);
    t(c <- not c);
    t(c);
    t(isvoid self = false);
    t(true = not false);
    t(not isvoid self);
    t((1 < 2) = false);
  } };
};
