class Main inherits IO {
  factorial(n : Int) : Int {
    if n < 2 then
      1
    else
      n * factorial(n - 1)
    fi
  };
  main() : Object { out_int(factorial(5)) };
};
