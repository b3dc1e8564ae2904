class Main inherits IO {
  count : Int <- 0;
  add(n : Int) : Int { count <- count + n };
  main() : Object {
    {
      add(3);
      out_int(add(4));
    }
  };
};
