class Main inherits IO {
  name : String;
  main() : Object {
    {
      name <- in_string();
      print("Hello ");
      out_string(name.concat("\n"));
    }
  };
};
