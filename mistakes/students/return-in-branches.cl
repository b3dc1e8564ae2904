class Main inherits IO {
  factorial(n : Int) : Int {
    if n < 2 then
      return 1
    else
      return n * factorial(n - 1)
    fi
  };
  main() : Object { out_int(factorial(5)) };
};
