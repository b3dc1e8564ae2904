class Main inherits IO {
  n : Int;
  main() : Object {
    {
      n <- in_int();
      if not n = 0 then out_int(100 / n) else out_string("none\n") fi;
    }
  };
};
