class Abs {
  of_int(n : Int) : Int { if n < 0 then ~n else n fi };
  distance(a : Int, b : Int) : Int { of_int(a - b) };
};
class Main inherits IO {
  main() : Object {
    {
      out_int((new Abs).distance(3, 19));
      out_string("\n");
    }
  };
};
