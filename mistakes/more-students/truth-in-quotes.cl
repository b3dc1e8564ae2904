class Main inherits IO {
  done : Bool <- "true";
  n : Int <- 3;
  main() : Object {
    if done then
      out_int(n)
    else
      out_string("not done\n")
    fi
  };
};
