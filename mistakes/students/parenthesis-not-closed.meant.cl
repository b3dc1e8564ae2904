class Main inherits IO {
  width : Int <- 3;
  height : Int <- 4;
  main() : Object {
    {
      out_int((width + height) * 2);
      out_string("\n");
    }
  };
};
