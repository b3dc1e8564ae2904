class Main inherits IO {
  age : Int;
  main() : Object {
    {
      out_string("Your age? ");
      age <- in_int();
      if age < "18" then out_string("minor\n") else out_string("of age\n") fi;
    }
  };
};
