class Main inherits IO {
  main() : Object {
    let n : Int <- 5 in {
      n <- n + 1;
      out_int(n);
      out_string("\n");
    }
  };
};
