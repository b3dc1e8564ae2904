class Main inherits IO {
  n : Int <- 3;
  main() : Object {
    if n = 3 then
      out_string("three\n")
    
      out_string("other\n")
    fi
  };
};
