class Main inherits IO {
  main() : Object {
    {
      out_string(" !#$%&'()*+,-./0123456789:;<=>?@ABCDEFGHIJKLMNOPQRSTUVWXYZ[]^_`abcdefghijklmnopqrstuvwxyz{|}~\n");
      out_string("-- no comment (* nor here *) } }; };\n");
    }
  };
};
