class Main inherits IO {
  show(o : Object) : Object {
    case o of
      i : Int => out_int(i);
      x : Object => out_string("something\n");
    esac
  };
  main() : Object { show(3) };
};
