class Main inherits IO {
  name : String;
  main() : Object {
    {
      out_string("Your name? ");
      name <- in_string();
      out_string("Hello ".concat(name).concat("\n"));
    }
  };
};
