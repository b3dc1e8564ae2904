class Main inherits IO {
  main() : Object {
    case 1 of x : Int => x;
      y : Bool => x;
    esac
  };
};
