class Main inherits IO {
  name : String <- "Ada";
  age : Int <- 36;
  main() : Object {
    {
      out_string(name);
      out_int(age);
    }
  };
};
