class Main inherits IO {
  main() : Object {
    case 1 of x : SELF_TYPE => 1; esac
  };
};
