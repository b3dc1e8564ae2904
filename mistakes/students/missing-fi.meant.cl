class Main inherits IO {
  sign(n : Int) : Int { if n < 0 then ~1 else 1 fi };
  main() : Object {
    {
      if sign(3) = 1 then
        out_string("yes")
      else
        out_string("no")
      fi;
      out_string("\n");
    }
  };
};
