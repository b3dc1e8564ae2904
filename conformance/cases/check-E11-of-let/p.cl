class Main inherits IO {
  main() : Object {
    let x : Paint in 1
  };
};
