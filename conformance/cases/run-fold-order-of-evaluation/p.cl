class Main inherits IO {
  say(n : Int) : Int { { out_int(n); n; } };
  add(a : Int, b : Int, c : Int) : Int { a + b + c };
  main() : Object { {
    out_int(say(1) + (2 + 3) * say(2));
    out_int(add(say(3), 4 - 4, say(5)));
    { out_string("."); self; }.add(say(6), 7 * 1, { out_string("!"); 8 / 2; });
  } };
};
