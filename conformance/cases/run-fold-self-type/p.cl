class A inherits IO {
  f() : Object { out_string("A") };
  g() : Object { { f(); self.f(); me().f(); h(); } };
  h() : Object { out_string("h") };
  me() : SELF_TYPE { self };
};
class B inherits A { f() : Object { out_string("B") }; };
class C inherits B { i() : Object { { f(); g(); (new SELF_TYPE).f(); } }; };
class Main inherits IO { main() : Object { { (new A).g(); (new B).g(); (new C).i(); } }; };
