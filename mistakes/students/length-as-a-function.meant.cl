class Main inherits IO {
  name : String;
  main() : Object {
    {
      name <- in_string();
      out_int(name.length());
      out_string("\n");
    }
  };
};
