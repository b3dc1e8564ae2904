class Main inherits IO {
  n : Int <- 3;
  main() : Object {
    if 0 < n < 10 then
      out_string("digit\n")
    else
      out_string("other\n")
    fi
  };
};
