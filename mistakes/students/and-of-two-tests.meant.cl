class Main inherits IO {
  n : Int <- 3;
  main() : Object {
    if if 0 < n then n < 5 else false fi then
      out_int(n)
    else
      out_string("out of range\n")
    fi
  };
};
