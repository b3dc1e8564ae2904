class Main inherits IO {
  name : String <- "Ada";
  age : Int <- 36;
  main() : Object {
    {
      out_int(name);
      out_int(age);
    }
  };
};
