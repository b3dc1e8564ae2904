class Palindrome {
  check(s : String) : String {
    if s.length() < 2 then true else
    if s.substr(0, 1) = s.substr(s.length() - 1, 1)
    then check(s.substr(1, len - 2)) else false fi fi
  };
};
class Main inherits IO {
  main() : Object {
    if (new Palindrome).check("racecar") then out_string("yes") else out_string("no") fi
  };
};
