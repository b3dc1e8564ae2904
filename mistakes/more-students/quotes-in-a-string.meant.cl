class Main inherits IO {
  main() : Object {
    {
      out_string("He said \"hello\" to me");
      out_string("\n");
    }
  };
};
