class Main inherits IO {
  n : Int <- 2;
  main() : Object {
    if n = 1 then out_string("one") else
      if n = 2 then out_string("two") else 0 fi
    fi
  };
};
