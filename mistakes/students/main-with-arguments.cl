class Main inherits IO {
  name : String;
  main(args : String) : Object {
    {
      name <- in_string();
      out_string("Hello ".concat(name));
      out_string("\n");
    }
  };
};
