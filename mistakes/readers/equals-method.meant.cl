class Main inherits IO {
  main() : Object {
    {
      if "a" = "b" then out_int(1) else out_int(2) fi;
    }
  };
};
