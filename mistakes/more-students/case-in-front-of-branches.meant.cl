class Main inherits IO {
  show(o : Object) : Object {
    case o of
      i : Int => out_int(i);
      s : String => out_string(s);
    esac
  };
  main() : Object { show(3) };
};
