class Main inherits IO {
  x : Object;
  f(x : Object, y : Object) : Int { 1 };
  main() : Object {
    case 1 of x : Int => zz; y : Object => 2; esac
  };
};
