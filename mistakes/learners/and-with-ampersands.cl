class Triangle {
  valid(a : Int, b : Int, c : Int) : Bool {
    if a < b + c && b < a + c then c < a + b else false fi
  };
};
class Main inherits IO {
  main() : Object {
    if (new Triangle).valid(3, 4, 5)
    then out_string("triangle\n")
    else out_string("impossible\n")
    fi
  };
};
