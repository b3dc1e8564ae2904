class Main inherits IO {
  name : String;
  main() : Object {
    {
      name <- in_string();
      out_string(name.substr(0, 1));
    }
  };
};
