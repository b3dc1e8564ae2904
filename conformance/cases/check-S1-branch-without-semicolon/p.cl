class Main inherits IO {
  main() : Object {
    case 1 of x : Int => x esac
  };
};
class A { f() : Int { 1 }; };
