class Main inherits IO {
  main() : Object {
    let a : Int <- 3 in
      out_int(a * a)
  };
  other() : Int {
    4
  };
};
