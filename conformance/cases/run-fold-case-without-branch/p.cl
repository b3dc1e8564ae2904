class A { };
class B inherits A { };
class C inherits B { };
class Main inherits IO {
  t(x : Object) : Object {
    case x of
      o : A => out_string("A\n");
      o : C => out_string("C\n");
      o : B => out_string("B\n");
    esac
  };
  v : A;
  main() : Object { { t(new C); t(new B); t(new A); t(1); } };
};
