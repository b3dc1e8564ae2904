class Main inherits IO {
  main() : Object {
    let x <- 3 in
    {
      out_int(x * x);
      out_string("\n");
    }
  };
};
