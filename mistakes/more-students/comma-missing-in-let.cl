class Main inherits IO {
  main() : Object {
    let a : Int <- 3
        b : Int <- 4 in
    {
      out_int(a * b);
      out_string("\n");
    }
  };
};
