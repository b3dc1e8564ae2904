class Main inherits IO {
  greeting : String <- "Good day";
  main() : Object {
    let size : Int <- greeting.length() in out_int(size)
  };
};
