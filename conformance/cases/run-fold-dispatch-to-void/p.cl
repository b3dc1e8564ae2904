class A { f(n : Int) : Int { n }; };
class Main inherits IO {
  main() : Object {
    let a : A in
      { out_string("to\n"); a; }.f({ out_string("arg\n"); 1; })
  };
};
