class Main inherits IO {
  main() : Object {
    {
      let n : Int <- 5 in out_int(n);
    }
  };
};
