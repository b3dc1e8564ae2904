-- All attributes have their defaults before the first initial value, those of parents come first, and each is stored at once.
class A inherits IO {
  a1 : Int <- say("a1", 10);
  a2 : Int <- say("a2", a1 + a3 + later());
  a3 : Int <- say("a3", a2 + 1);
  say(name : String, x : Int) : Int { { out_string(name).out_string("=").out_int(x).out_string(" "); x; } };
  later() : Int { 0 };
};
class B inherits A {
  b1 : Int <- say("b1", a3 + b2);
  b2 : Int <- say("b2", b1 * 2);
  later() : Int { { out_string("(b1 ").out_int(b1).out_string(", b2 ").out_int(b2).out_string(") "); 1000; } };
};
class C inherits B {
  c1 : C <- note(self);
  c2 : C <- c1;
  none : C;
  flag : Bool <- isvoid none;
  text : String <- type_name();
  kept : Int <- kept + 1;
  count : Int <- { b2 <- 5; b2 + 1; };
  note(c : C) : C { { out_string(if isvoid c2 then "c2 is void " else "c2 is set " fi); c; } };
  show() : Object { {
    out_string("\n").out_int(b2).out_string(" ").out_int(kept).out_string(" ").out_int(count).out_string(" ").out_string(text);
    out_string(if flag then " true" else " false" fi);
    out_string(if c1 = c2 then " same" else " other" fi);
    out_string(if c1 = self then " self\n" else " another\n" fi);
  } };
};
class Main inherits IO {
  main() : Object { {
    new A; out_string("\n");
    new B; out_string("\n");
    (new C).show();
  } };
};
