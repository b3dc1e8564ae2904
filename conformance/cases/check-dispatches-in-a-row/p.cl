class Main inherits IO {
  f() : SELF_TYPE { self };
  main() : Object {
    { self.f()@Main.f()@Object.copy(); f()@IO.out_string("a").f(); (new Main)@Main.f(); "a"@Object.type_name().length(); }
  };
};
