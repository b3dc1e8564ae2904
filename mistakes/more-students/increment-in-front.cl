class Main inherits IO {
  main() : Object {
    let n : Int <- 5 in {
      ++n;
      out_int(n);
      out_string("\n");
    }
  };
};
