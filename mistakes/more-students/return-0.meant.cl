class Main inherits IO {
  main() : Int {
    {
      out_string("Hello\n");
      0;
    }
  };
};
