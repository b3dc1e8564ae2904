class Main inherits IO {
  kind(o : Object) : String {
    case o of
      i : Int => "an integer";
      s : String => "a string";
      b : Bool => "a boolean";
      x : Object => "something";
    esac
  };
  main() : Object {
    {
      out_string(kind(3));
      out_string(kind("three"));
      out_string(kind(true));
    }
  };
};
