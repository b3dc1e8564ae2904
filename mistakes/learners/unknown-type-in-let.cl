class Main inherits IO {
  fizz(n : Int) : Object {
    let by3 : Boolean <- n = (n / 3) * 3,
        by5 : Bool <- n = (n / 5) * 5 in
      if by3 then if by5 then out_string("FizzBuzz ") else out_string("Fizz ") fi
      else if by5 then out_string("Buzz ") else out_int(n) fi fi
  };
  main() : Object {
    let i : Int <- 1 in while i <= 15 loop { fizz(i); i <- i + 1; } pool
  };
};
