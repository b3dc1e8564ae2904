class Main inherits IO {
  is_vowel(c : String) : Bool {
    c = "a" or c = "e"
  };
  main() : Object {
    if is_vowel(in_string()) then out_string("vowel\n") else out_string("other\n") fi
  };
};
