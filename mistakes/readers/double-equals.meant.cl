class Main inherits IO {
  main() : Object {
    if 3 = 2 then out_string("y") else out_string("n") fi
  };
};
