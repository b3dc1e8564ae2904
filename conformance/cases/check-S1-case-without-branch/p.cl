class Main inherits IO {
  main() : Object {
    case 1 of esac
  };
};
class A { f() : Int { 1 }; };
