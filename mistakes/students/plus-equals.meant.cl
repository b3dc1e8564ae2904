class Main inherits IO {
  total : Int;
  add(n : Int) : Int {
    {
      total <- total + n;
      total;
    }
  };
  main() : Object { out_int(add(3)) };
};
