class Main inherits IO {
  main() : Object {
    {
      out_string("\n\nfirst\nsecond\n\n");
      out_string("n\nn");
      out_string("\n");
    }
  };
};
