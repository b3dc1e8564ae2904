class Main inherits IO {
  n : Int <- 3;
  main() : Object {
    if 2 < n then
      out_int(n)
    else
      out_string("too small\n")
    fi
  };
};
