class Main inherits IO {
  points : Int;
  main() : Object {
    {
      points <- in_int();
      if 50 <= points then out_string("passed\n") else out_string("failed\n") fi;
    }
  };
};
