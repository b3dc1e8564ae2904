class Parity {
  odd(n : Int) : Int { n - (n / 2) * 2 };
};
class Main inherits IO {
  p : Parity <- new Parity;
  main() : Object {
    if p.odd(in_int())
    then out_string("odd\n")
    else out_string("even\n")
    fi
  };
};
