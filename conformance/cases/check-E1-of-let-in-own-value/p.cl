class Main inherits IO {
  main() : Object {
    let a : Int <-
      a
    in a
  };
};
