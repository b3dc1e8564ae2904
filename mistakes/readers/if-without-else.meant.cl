class Main inherits IO {
  main() : Object {
    if 1 < 2 then out_string("yes") else 0 fi
  };
};
