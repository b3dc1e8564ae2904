class Average {
  of_three(a : Int, b : Int, c : Int) : Int {
    let sum : Int <- a + b + c in sum / 3
  };
};
class Main inherits IO {
  main() : Object {
    out_int((new Average).of_three(in_int(), in_int(), in_int()))
  };
};
