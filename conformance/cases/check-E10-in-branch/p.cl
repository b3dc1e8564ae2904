class Main inherits IO {
  main() : Object {
    case 1 of self : Int => 1; esac
  };
};
