class Main inherits IO {
  main() : Object {
    {
      if 1 < 2 then out_int(1) else out_int(2) fi;
      out_int(3);
    }
  };
};
