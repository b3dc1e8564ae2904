class Main inherits IO {
  n : Int <- 3;
  main() : Object {
    if if 0 < n then n < 9 else false fi then
      out_string("digit\n")
    else
      out_string("none\n")
    fi
  };
};
