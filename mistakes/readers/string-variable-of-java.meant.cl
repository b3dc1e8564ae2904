class Main inherits IO {
  main() : Object {
    {
      let s : String <- "a" in
      out_string(s);
    }
  };
};
