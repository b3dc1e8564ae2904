class Main inherits IO {
  main() : Object {
    let i : Int <- 0, done : Bool in
      while if i < 10 then not done else false fi loop
        {
          i <- i + 1;
          done <- i * i = 49;
        }
      pool
  };
};
