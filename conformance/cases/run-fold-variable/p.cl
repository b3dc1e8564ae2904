class Main inherits IO {
  zero : Int <- 0;
  main() : Object { {
    zero <- zero + 5;
    out_int(zero + 1);
    let one : Int <- 1 in { one <- 7; out_int(one + 1); };
    let yes : Bool <- true in { yes <- not yes; if yes then out_string(" yes") else out_string(" no") fi; };
  } };
};
