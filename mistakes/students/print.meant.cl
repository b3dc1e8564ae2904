class Main inherits IO {
  name : String;
  main() : Object {
    {
      name <- in_string();
      out_string("Hello ");
      out_string(name.concat("\n"));
    }
  };
};
