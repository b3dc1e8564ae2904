class Main inherits IO {
  show(o : Object) : Object {
    case o of
      i : Int => out_int(i);
      default => out_string("something\n");
    esac
  };
  main() : Object { show(3) };
};
