class Main inherits IO {
  done : Bool <- False;
  n : Int;
  main() : Object {
    while not done loop {
      n <- n + 1;
      done <- n = 3;
    } pool
  };
};
