class Main inherits IO {
  n : Int <- 3;
  main() : Object {
    if 0 < n && n < 9 then
      out_string("digit\n")
    else
      out_string("none\n")
    fi
  };
};
