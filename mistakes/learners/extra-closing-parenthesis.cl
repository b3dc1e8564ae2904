class Power {
  pow(b : Int, e : Int) : Int {
    if e = 0 then 1 else b * pow(b, e - 1)) fi
  };
};
class Main inherits IO {
  main() : Object {
    let p : Power <- new Power in {
      out_int(p.pow(2, 10));
      out_string("\n");
      out_int(p.pow(3, 4));
    }
  };
};
