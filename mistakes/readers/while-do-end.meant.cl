class Main inherits IO {
  main() : Object {
    {
      while 1 < 2 loop out_int(1) pool;
    }
  };
};
