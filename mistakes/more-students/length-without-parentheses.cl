class Main inherits IO {
  name : String <- "Ada";
  main() : Object {
    {
      out_string(name);
      out_int(name.length);
    }
  };
};
