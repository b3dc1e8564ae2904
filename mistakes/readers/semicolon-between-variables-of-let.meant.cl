class Main inherits IO {
  main() : Object {
    let x : Int <- 1, y : Int <- 2 in out_int(x + y)
  };
};
