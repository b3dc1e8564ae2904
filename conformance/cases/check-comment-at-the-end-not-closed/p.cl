class Main inherits IO {
  main() : Object {
    1
  };
};
(* and no more
