class Main inherits IO {
  main() : Object {
    let n : Int <- 27 in
      while (n != 1) {
        out_int(n);
        out_string("\n");
        n <- if n / 2 * 2 = n then n / 2 else 3 * n + 1 fi;
      }
  };
};
