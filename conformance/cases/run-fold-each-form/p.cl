(* Each form of expression once, at its smallest. *)
class A { f() : Int { 1 }; };
class B inherits A { f() : Int { 2 }; };

class Main inherits IO {
  a : Int;
  g() : Int { 9 };
  n(x : Int) : Object { out_int(x).out_string("\n") };
  s(x : String) : Object { out_string(x).out_string("\n") };
  t(x : Bool) : Object { s(if x then "true" else "false" fi) };

  main() : Object { {
    n(7);
    s("text");
    t(true);
    t(false);
    n(a);
    n(a <- 3);
    n(a);
    n(g());
    n((new B).f());
    n((new B)@A.f());
    n(if true then 1 else 2 fi);
    n(if false then 1 else 2 fi);
    t(isvoid while false loop 1 pool);
    n({ 1; });
    n({ 1; 2; });
    n(let x : Int in x);
    n(let x : Int <- 5 in x);
    n(case 1 of x : Int => x; esac);
    n(new Int);
    t(isvoid new A);
    n(1 + 2);
    n(1 - 2);
    n(2 * 3);
    n(7 / 2);
    n(~1);
    t(1 < 2);
    t(1 <= 2);
    t(1 = 2);
    t(not true);
    n((4));
    s(self.type_name());
  } };
};
