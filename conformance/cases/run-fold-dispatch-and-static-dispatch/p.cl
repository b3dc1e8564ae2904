-- Which method a dispatch takes, and what self is in it.
class A inherits IO {
  name() : String { "A" };
  f() : SELF_TYPE { out_string("A.f of ").out_string(name()).out_string("\n") };
  g() : SELF_TYPE { { out_string("A.g: "); f(); } };
  h(x : Int) : Int { x + 1 };
};
class B inherits A {
  f() : SELF_TYPE { out_string("B.f of ").out_string(name()).out_string("\n") };
  h(x : Int) : Int { self@A.h(x) * 10 };
};
class C inherits B {
  name() : String { "C" };
  g() : SELF_TYPE { { out_string("C.g, then "); self@B.g(); } };
  h(x : Int) : Int { self@B.h(x) + self@A.h(x) };
};
class D inherits C { };
class Main inherits IO {
  n(x : Int) : Object { out_int(x).out_string("\n") };
  main() : Object {
    let a : A <- new A, b : A <- new B, c : A <- new C, d : D <- new D in {
      a.f(); b.f(); c.f(); d.f();
      a.g(); b.g(); c.g(); d.g();
      b@A.f(); c@A.f(); d@B.f(); d@A.g(); d@C.g(); d@D.g();
      n(a.h(1)); n(b.h(1)); n(c.h(1)); n(d.h(1)); n(d@A.h(1)); n(d@B.h(1));
      d.f().g()@A.f().f();
      out_string(d@Object.type_name()).out_string("\n");
      d@IO.out_string("by IO\n")@Object.copy()@A.f();
      self@IO.out_int(5)@IO.out_string("\n");
    }
  };
};
