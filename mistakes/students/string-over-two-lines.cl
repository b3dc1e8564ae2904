class Main inherits IO {
  name : String;
  main() : Object {
    {
      out_string("What is
your name? ");
      name <- in_string();
      out_string(name.concat("\n"));
    }
  };
};
