class Main inherits IO {
  sign(n : Int) : Int {
    if n < 0 then
      ~1
    else
      1
    fi
  };
  main() : Object { out_int(sign(3)) };
};
