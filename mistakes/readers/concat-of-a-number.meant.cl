class Main inherits IO {
  main() : Object {
    {
      let n : Int <- 5 in { out_string("n = "); out_int(n); };
    }
  };
};
