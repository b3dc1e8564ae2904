class Main inherits IO {
  main() : Object {
    out_string("a",)
  };
};
class A { f() : Int { 1 }; };
