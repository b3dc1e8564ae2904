class Main inherits IO {
  main() : Object {
    if 2 < 3 then out_string("y") else out_string("n") fi
  };
};
