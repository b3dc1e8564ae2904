class A inherits IO {
  stop() : Object { { out_string("stop\n"); abort(); out_string("not written\n"); } };
  type_name() : String { "mine" };
};
class B inherits A { };
class Main inherits IO { main() : Object { (new B).stop() }; };
