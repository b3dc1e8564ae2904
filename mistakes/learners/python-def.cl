class Temperature {
  def toF(c : Int) : Int { c * 9 / 5 + 32 };
  toC(f : Int) : Int { (f - 32) * 5 / 9 };
};
class Main inherits IO {
  t : Temperature <- new Temperature;
  main() : Object {
    {
      out_int(t.toF(100));
      out_string("\n");
      out_int(t.toC(212));
    }
  };
};
