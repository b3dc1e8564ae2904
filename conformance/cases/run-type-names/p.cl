-- type_name of each kind of value.
class A { me() : SELF_TYPE { self }; };
class A_b_1 inherits A { };
class VeryLongNameOfAClassThatGoesOnAndOnAndOnAndOnAndOnAndOnAndOnAndOnAndOnAndOnAndOnAndOn inherits A_b_1 { };
class Main inherits IO {
  p(x : Object) : Object { out_string(x.type_name()).out_string(" ").out_int(x.type_name().length()).out_string("\n") };
  main() : Object { {
    p(0); p(""); p(true); p(new Object); p(new IO); p(new Int); p(new String); p(new Bool); p(self); p(new A); p(new A_b_1);
    p(new VeryLongNameOfAClassThatGoesOnAndOnAndOnAndOnAndOnAndOnAndOnAndOnAndOnAndOnAndOnAndOn);
    p((new A_b_1).me()); p((new A_b_1)@A.me()); p(let a : A <- new A_b_1 in a);
    p(1 + 1); p(1 < 2); p("a".concat("b")); p("a".type_name()); p(1.type_name().type_name());
    p(new SELF_TYPE); p(out_string("")); p(1.copy());
    out_string("x"@Object.type_name()).out_string(1@Object.type_name()).out_string(true@Object.type_name()).out_string("\n");
  } };
};
