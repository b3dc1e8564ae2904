class Main inherits IO {
  n : Int <- 3;
  main() : Object {
    if n < 0 or 9 < n then
      out_string("no digit\n")
    else
      out_int(n)
    fi
  };
};
