class Main inherits IO {
  gcd(a : Int, b : Int) : Int {
    if b = 0 then a else
      let r : Int <- a - (a / b) * b
      in
      {
        gcd(b, r);
      }
    fi
  };
  main() : Object {
    {
      out_int(gcd(84, 36));
      out_string("\n");
    }
  };
};
