class Weekend {
  free(day : Int) : Bool {
    day = 6 or day = 7
  };
};
class Main inherits IO {
  main() : Object {
    if (new Weekend).free(in_int()) then out_string("sleep\n") else out_string("work\n") fi
  };
};
