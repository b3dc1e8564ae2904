class Main inherits IO {
  p(b : Bool) : Object { out_string(if b then "t" else "f" fi) };
  main() : Object { {
    p(new Object = new Object);
    p(let x : Object <- 1, y : Object <- 1 in x = y);
    p(let x : Object, y : Object in x = y);
    p(let x : Object <- 1, y : Object <- "1" in x = y);
  } };
};
