class Main inherits IO {
  main() : Object {
    case 5 of
      x : Int => out_int(x);
      default : Object => out_string("?");
    esac
  };
};
