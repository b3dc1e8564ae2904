class Main inherits IO {
  main() : Object {
    {
      out_string("A number: ");
      let x : Int <- in_int() in
        out_int(x * x);
      out_string("\n");
    }
  };
};
