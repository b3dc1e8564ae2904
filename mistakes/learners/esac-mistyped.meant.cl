class Shape { };
class Circle inherits Shape { };
class Square inherits Shape { };
class Main inherits IO {
  describe(s : Shape) : String {
    case s of
      c : Circle => "round";
      q : Square => "angular";
      o : Shape => "unknown";
    esac
  };
  main() : Object { out_string(describe(new Circle)) };
};
