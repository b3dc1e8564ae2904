-- new SELF_TYPE makes an object of the class of the object itself. A result of type SELF_TYPE is of the receiver's own class.
class A inherits IO {
  n : Int <- 1;
  twin() : SELF_TYPE { new SELF_TYPE };
  kept : SELF_TYPE;
  keep() : SELF_TYPE { { kept <- twin(); self; } };
  kept() : SELF_TYPE { if isvoid kept then self else kept fi };
  size() : Int { n };
  show() : SELF_TYPE { out_string(type_name()).out_string(" ").out_int(size()).out_string("\n") };
};
class B inherits A { m : Int <- 20; size() : Int { n + m }; };
class C inherits B { size() : Int { let other : SELF_TYPE <- new SELF_TYPE in if isvoid other then 0 else 300 fi }; };
class Counter inherits IO {
  n : Int;
  up() : SELF_TYPE { { n <- n + 1; self; } };
  print() : SELF_TYPE { out_int(n).out_string("\n") };
};
class Twice inherits Counter {
  up() : SELF_TYPE { { n <- n + 2; self; } };
  down() : SELF_TYPE { { n <- n - 1; self; } };
};
class Main inherits IO {
  main() : Object { {
    (new Counter).up().up().print();
    (new Twice).up().down().up().print().down().print();
    (new Twice)@Counter.up().down().print();
    let t : Twice <- new Twice, u : Twice <- t.up() in { u.up(); t.print(); out_string(if t = u then "same\n" else "other\n" fi); };
    (new Twice).copy().up().print();
    (new A).twin().show();
    (new B).twin().show();
    (new C).twin().twin().show();
    (new B)@A.twin().show();
    (let a : A <- new C in a).twin().show();
    (new A).keep().kept().show();
    (new C).keep().kept().keep().show();
    (new B).kept().show();
    out_string(if (new A).twin() = new A then "same\n" else "other\n" fi);
    out_string((new SELF_TYPE).type_name()).out_string("\n");
  } };
};
