class Main inherits IO {
  n : Int <- 3;
  main() : Object {
    if if n = 1 then true else n = 3 fi then
      out_string("odd\n")
    else
      out_string("other\n")
    fi
  };
};
