class Main inherits IO {
  main() : Object {
    {
      out_string("one");
      out_string(", two");
      out_string("");
      out_string(", three\n");
      out_string("four\n");
    }
  };
};
