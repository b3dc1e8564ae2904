class Main inherits IO {
  x : Object;
  f(x : Object, y : Object) : Int { 1 };
  main() : Object {
    case zz of x : Int => 1; esac
  };
};
