class A { f(x : Int) : Int { x }; };
class B inherits A { };
class Main inherits IO {
  b : B;
  main() : Object {
    { out_string("receiver\n"); b; }
      @A
      .
      f
      ({ out_string("argument\n"); 1; })
  };
};
