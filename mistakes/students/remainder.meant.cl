class Main inherits IO {
  is_even(n : Int) : Bool {
    n - n / 2 * 2 = 0
  };
  main() : Object {
    if is_even(4) then
      out_string("even\n")
    else
      out_string("odd\n")
    fi
  };
};
