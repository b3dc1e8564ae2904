class Main inherits IO {
  main() : Object {
    let i : Int in while i < 2 loop {
      let n : Int, s : String, b : Bool, o : Object, m : SELF_TYPE, e : Main in {
        out_int(n); out_int(s.length()); if b then out_string("t") else out_string("f") fi;
        if isvoid o then out_string("v") else 0 fi; if isvoid m then out_string("v") else 0 fi; if isvoid e then out_string("v") else 0 fi;
        n <- 7; s <- "abc"; b <- true; o <- self; m <- self; e <- self; out_int(n + s.length()); out_string("\n");
      };
      i <- i + 1;
    } pool
  };
};
