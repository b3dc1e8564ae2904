class Main inherits IO {
  points : Int;
  main() : Object {
    {
      points <- in_int();
      if points >= 50 then out_string("passed\n") else out_string("failed\n") fi;
    }
  };
};
