class Reverse {
  flip(s : String) : String {
    if s.length() = 0 then "" else
      flip(s.substr(1, s.length() - 1)).concat(s.substr(0, 1))
    fi
  };
};
class Main inherits IO {
  main() : Object { out_string((new Reverse).flip("stressed")) };
};
