class A { };
class B inherits A { type_name() : String { "other" }; };
class C inherits B { };
class D inherits A { type_name() : String { "other" }; };
class Main inherits IO {
  pick(a : A) : Int {
    1 +
      case
        a of
        c : C => 3;
        b : B => 2;
      esac
  };
  main() : Object { {
    out_int(pick(new C)).out_string("\n");
    out_int(pick(new B)).out_string("\n");
    out_int(pick(new D)).out_string("\n");
  } };
};
