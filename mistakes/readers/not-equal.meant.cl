class Main inherits IO {
  main() : Object {
    if not not 3 = 2 then out_string("y") else out_string("n") fi
  };
};
