class Main inherits IO {
  main() : Object {
    let width : Int <- 3;
        height : Int <- 4 in
    {
      out_int(width * height);
      out_string("\n");
    }
  };
};
