class Main inherits IO {
  n : Int <- 3;
  main() : Object {
    {
      if n < 5 then out_string("small ") fi;
      out_int(n);
      out_string("\n");
    }
  };
};
