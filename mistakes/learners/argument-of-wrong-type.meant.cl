class Repeater {
  times(s : String, n : Int) : String {
    if n = 0 then "" else s.concat(times(s, n - 1)) fi
  };
};
class Main inherits IO {
  main() : Object { out_string((new Repeater).times("ab", 3)) };
};
