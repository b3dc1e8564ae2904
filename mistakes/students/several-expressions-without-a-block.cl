class Main inherits IO {
  name : String <- "Ada";
  age : Int <- 36;
  main() : Object {
    out_string(name);
    out_string(" is ");
    out_int(age);
    out_string("\n");
  };
};
