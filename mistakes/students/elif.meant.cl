class Main inherits IO {
  sign(n : Int) : String {
    if n < 0 then
      "negative"
    else if n = 0 then
      "zero"
    else
      "positive"
    fi fi
  };
  main() : Object { out_string(sign(3)) };
};
