class A { f() : Int { 1 }; g() : Int { f() }; };
class B inherits A { f() : Int { 2 }; };
class Main inherits IO {
  main() : Object { {
    out_int((if true then new B else new A fi).f());
    out_int((if false then new B else new A fi).f());
    out_int((if 1 = 1 then new B else new A fi).g());
    out_string((if true then 1 else "one" fi).type_name());
    out_string((if false then 1 else "one" fi).type_name());
    case if true then 3 else new A fi of
      a : A => out_string("A");
      i : Int => out_int(i);
    esac;
  } };
};
