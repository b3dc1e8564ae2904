class Main inherits IO {
  is_vowel(c : String) : Bool {
    if c = "a" then true else c = "e" fi
  };
  main() : Object {
    if is_vowel(in_string()) then out_string("vowel\n") else out_string("other\n") fi
  };
};
