class Main inherits IO {
  factorial(n : Int) : Int {
    if n = 0 then 1 else n * factorial(n - 1) fi
  };
  main() : Object {
    {
      out_string("7! = ");
      out_int(factorial(7));
      out_string("\n");
    }
  };
};
