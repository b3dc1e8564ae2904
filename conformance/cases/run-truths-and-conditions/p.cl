-- not, isvoid, if within if, and predicates of all kinds.
class A { next : A; last() : A { next }; };
class Main inherits IO {
  a : A; o : Object; io : IO; me : SELF_TYPE; i : Int; b : Bool; s : String;
  t(v : Bool) : SELF_TYPE { out_string(if v then "t" else "f" fi) };
  both(x : Bool, y : Bool) : Bool { if x then y else false fi };
  either(x : Bool, y : Bool) : Bool { if x then true else y fi };
  odd(x : Bool, y : Bool) : Bool { not x = y };
  voids() : Object { {
    t(isvoid a).t(isvoid o).t(isvoid io).t(isvoid me);
    t(isvoid i).t(isvoid b).t(isvoid s).t(isvoid self);
    out_string("\n");
    t(isvoid 0).t(isvoid false).t(isvoid "").t(isvoid new A).t(isvoid new Object).t(isvoid new Int).t(isvoid isvoid a);
    out_string("\n");
    t(isvoid while false loop 0 pool); t(isvoid (a <- new A)); t(isvoid a); t(isvoid a.last());
    t(isvoid (o <- a.last())); t(isvoid o); t(isvoid (o <- 0)); t(isvoid o);
    out_string("\n");
    t(isvoid let x : A in x); t(isvoid let x : Int in x); t(isvoid { o; a.last(); }); t(isvoid { a.last(); o; });
    t(isvoid if true then a else a.last() fi); t(isvoid case a of x : A => x.last(); esac); t(not isvoid a);
    out_string("\n");
  } };
  table(x : Bool, y : Bool) : Object { t(x).t(y).t(not x).t(both(x, y)).t(either(x, y)).t(odd(x, y)).t(not both(not x,
      not y)).out_string("\n") };
  sign(n : Int) : String { if n < 0 then "negative" else if n = 0 then "zero" else if n <= 9 then "digit" else "large" fi fi fi };
  main() : Object { {
    table(false, false);
    table(false, true);
    table(true, false);
    table(true, true);
    voids();
    out_string(sign(~5)).out_string(" ").out_string(sign(0)).out_string(" ").out_string(sign(9)).out_string(" ");
    out_string(sign(10)).out_string("\n");
    t(if true then false else true fi).t(if if true then false else true fi then true else false fi);
    t(if isvoid self then true else false fi).t(if { 1; true; } then true else false fi).t(if let b : Bool in b then true else false fi);
    t(if case 1 of i : Int => i = 1; esac then true else false fi).t(if not not true then true else false fi);
    out_string("\n");
    case if 1 < 2 then 5 else "text" fi of i : Int => out_int(i); s : String => out_string(s); esac;
    case if 2 < 1 then 5 else "text" fi of i : Int => out_int(i); s : String => out_string(s); esac;
    out_string("\n");
  } };
};
