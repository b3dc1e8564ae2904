class Main inherits IO {
  main() : Object {
    case 1 of x : Paint => 1; esac
  };
};
