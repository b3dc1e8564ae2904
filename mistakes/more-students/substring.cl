class Main inherits IO {
  name : String;
  main() : Object {
    {
      name <- in_string();
      out_string(name.substring(0, 1));
    }
  };
};
