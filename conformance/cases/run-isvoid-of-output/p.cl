class Main inherits IO {
  o : Main;
  main() : Object {
    {
      if isvoid { out_string("first "); o <- self; o; } then out_string("void ") else out_string("object ") fi;
      if isvoid o then out_string("void\n") else out_string("object\n") fi;
    }
  };
};
