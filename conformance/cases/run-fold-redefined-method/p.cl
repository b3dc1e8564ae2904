class A { name() : String { "A" }; };
class B inherits A { name() : String { "B" }; };
class C inherits B { };
class Main inherits IO {
  main() : Object {
    let a : A in {
      a <- new B; out_string(a.name());
      a <- new C; out_string(a.name());
      a <- new A; out_string(a.name());
      a <- new B; out_string(a@A.name());
    }
  };
};
