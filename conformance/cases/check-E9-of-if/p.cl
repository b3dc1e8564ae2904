class Main inherits IO {
  main() : Object {
    if
      new Object
    then 1 else 2 fi
  };
};
