class Sign inherits IO {
  tell(n : Int) : Object {
    if n < 0 then out_string("negative\n")
    elseif n = 0 then out_string("zero\n")
    else out_string("positive\n")
    fi
  };
};
class Main inherits IO {
  main() : Object { (new Sign).tell(in_int()) };
};
