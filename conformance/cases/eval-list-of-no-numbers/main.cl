class Main inherits IO {
  main() : Object {
    let l : List, n : Int <- in_int() in
      {
        while 0 < n loop { l <- (new List).init(n, l).copy(); n <- in_int(); } pool;
        if isvoid l then out_string("empty\n")
        else l.show().out_int(l.sum()).out_string("\n") fi;
      }
  };
};
