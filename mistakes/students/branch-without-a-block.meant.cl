class Main inherits IO {
  n : Int <- 3;
  main() : Object {
    if 0 < n then {
      out_int(n);
      n <- n - 1;
    } else
      out_string("none\n")
    fi
  };
};
