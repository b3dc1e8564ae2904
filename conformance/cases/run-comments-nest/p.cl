class Main inherits IO {
  main() : Object {
    { out_string("a"); (* (* 1 *) out_string("b"); (* (* *) *) *) out_string("c"); }
  };
};
