class Main inherits IO {
  main() : Object {
    {
      out_int(5);
    }
  };
};
