class Main inherits IO {
  name : String;
  main() : Object {
    {
      name <- in_string();
      if name.equals("Ada") then out_string("Hello\n") else out_string("Who is it?\n") fi;
    }
  };
};
