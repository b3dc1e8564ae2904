class Main inherits IO {
  greeting(name : String) : Int { "Hello ".concat(name) };
  main() : Object {
    {
      out_string(greeting("Ada"));
      out_string("\n");
    }
  };
};
