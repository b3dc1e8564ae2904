class Weekend {
  free(day : Int) : Bool {
    if day = 6 then true else day = 7 fi
  };
};
class Main inherits IO {
  main() : Object {
    if (new Weekend).free(in_int()) then out_string("sleep\n") else out_string("work\n") fi
  };
};
