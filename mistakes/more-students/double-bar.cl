class Main inherits IO {
  n : Int <- 3;
  main() : Object {
    if n = 1 || n = 3 then
      out_string("odd\n")
    else
      out_string("other\n")
    fi
  };
};
