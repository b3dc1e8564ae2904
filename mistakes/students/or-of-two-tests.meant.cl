class Main inherits IO {
  n : Int <- 3;
  main() : Object {
    if if n < 0 then true else 9 < n fi then
      out_string("no digit\n")
    else
      out_int(n)
    fi
  };
};
