class Main inherits IO {
  name : String;
  main() : Object {
    {
      name <- in_string();
      out_string("Hello " + name + "\n");
    }
  };
};
