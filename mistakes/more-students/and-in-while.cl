class Main inherits IO {
  main() : Object {
    let i : Int <- 0, done : Bool in
      while i < 10 and not done loop
        {
          i <- i + 1;
          done <- i * i = 49;
        }
      pool
  };
};
