-- Names that resemble those of compiled code or of assembly.
class Foo_init { f() : String { "Foo_init" }; };
class Foo { init() : String { "Foo.init" }; f() : String { "Foo" }; };
class Foo_protObj inherits Foo { f() : String { "Foo_protObj" }; };
class Main_init inherits Foo_init { main() : String { "Main_init.main" }; };
class Object_copy inherits IO { copy() : SELF_TYPE { { out_string("copied "); self; } }; };
class String_dispTab { length() : Int { 12 }; };
class Int_tag { x : Int <- 3; x() : Int { x }; };
class Main inherits IO {
  int_const0 : Int <- 5; str_const0 : String <- "six"; bool_const0 : Bool <- true; heap_start : Int <- 7; sp : Int <- 8; main : Int <- 9;
  class_nameTab() : Int { int_const0 };
  equality_test(a0 : Int, t1 : Int) : Bool { a0 = t1 };
  jal() : Int { 10 };
  add(sub : Int, lw : Int) : Int { sub + lw };
  s(x : String) : Object { out_string(x).out_string("\n") };
  n(x : Int) : Object { out_int(x).out_string("\n") };
  main() : Object { {
    s((new Foo_init).f()); s((new Foo).f()); s((new Foo).init()); s((new Foo_protObj).f()); s((new Foo_protObj).init());
    s((new Main_init).main()); s((new Main_init).f()); s((new Object_copy).copy().type_name());
    n((new String_dispTab).length()); n((new Int_tag).x());
    n(int_const0); s(str_const0); n(heap_start); n(sp); n(main); n(class_nameTab()); n(jal()); n(add(1, 2));
    s(if equality_test(3, 3) then "equal" else "not" fi); s(if bool_const0 then "true" else "false" fi);
  } };
};
