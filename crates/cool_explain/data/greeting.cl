class Main inherits IO {
  name : String <- "Ada";
  main() : Object {
    out_string("Good day, ".conact(name))
  };
};
