class Main inherits IO {
  g(n : Int) : String {
    if n = 0 then "zero"
    else if n = 1 then "one"
    else "many"
    fi fi
  };
  main() : Object { out_string(g(1)) };
};
