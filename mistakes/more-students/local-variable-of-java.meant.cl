class Main inherits IO {
  main() : Object {
    {
      out_string("total: ");
      let total : Int <- 3 in {
      out_int(total);
      out_string("\n");
    };
    }
  };
};
