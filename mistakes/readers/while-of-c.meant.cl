class Main inherits IO {
  i : Int;
  main() : Object {
    while (i < 10) loop { out_int(i); i <- i + 1; } pool
  };
};
