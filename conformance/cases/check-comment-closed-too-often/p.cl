class Main inherits IO {
  main() : Object {
    (* a (* b *) c *) *) 1
  };
};
