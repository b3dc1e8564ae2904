class Stars inherits IO {
  row(n : Int) : Object {
    for i : Int <- 0 to n loop {
      out_string("*");
      i <- i + 1;
    } pool
  };
};
class Main {
  main() : Object { { (new Stars).row(3); (new Stars).row(6); } };
};
