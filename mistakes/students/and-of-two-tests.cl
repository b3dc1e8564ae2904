class Main inherits IO {
  n : Int <- 3;
  main() : Object {
    if 0 < n and n < 5 then
      out_int(n)
    else
      out_string("out of range\n")
    fi
  };
};
