class Main inherits IO {
  factorial(n : Int) : Int {
    if n = 0
    then 1
    else
      factorial(
        n - 1)
      *
      n
    fi
  };
  main() : Object {
    let n : Int in
      while true loop {
        n <- n + 1;
        out_int(n).out_string("! = ").out_int(factorial(n)).out_string("\n");
      } pool
  };
};
