class Stars inherits IO {
  row(n : Int) : Object {
    let i : Int <- 0 in while i < n loop {
      out_string("*");
      i <- i + 1;
    } pool
  };
};
class Main {
  main() : Object { { (new Stars).row(3); (new Stars).row(6); } };
};
