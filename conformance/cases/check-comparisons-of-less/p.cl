class Main inherits IO {
  main() : Object {
    if 1 < 2 < 3 then 1 else 2 fi
  };
};
