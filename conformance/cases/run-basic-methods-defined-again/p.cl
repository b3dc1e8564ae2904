class Foo { copy() : SELF_TYPE { self }; type_name() : String { "mine" }; };
class Foo_init inherits Foo { };
class Main inherits IO {
  main() : Object { {
    out_string((new Foo_init).copy().type_name());
    out_string((new Foo_init)@Object.type_name());
    out_int(1 + 1);
  } };
};
