class Main inherits IO {
  done : Bool;
  n : Int;
  main() : Object {
    while not done loop {
      n <- n + 1;
      done <- n = 3;
    } pool
  };
};
