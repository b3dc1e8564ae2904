class Main inherits IO {
  main() : Object {
    let x : Int <- 1 in out_int(x)
  };
};
