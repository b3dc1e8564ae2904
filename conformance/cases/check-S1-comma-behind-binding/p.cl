class Main inherits IO {
  main() : Object {
    let x : Int, in 1
  };
};
class A { f() : Int { 1 }; };
