class Main inherits IO {
  main() : Object {
    { out_string(if isvoid while false loop 1 pool then "v" else "n" fi); let x : Int in out_string(if isvoid while x < 1 loop x <- 1 pool then "v" else "n" fi); let x : Int, o : Object <- self in { o <- while x < 2 loop { x <- x + 1; "a"; } pool; out_string(if isvoid o then "v" else "n" fi); out_int(x); }; }
  };
};
