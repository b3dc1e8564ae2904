class Main inherits IO {
  f() : Object { "abc".substr(1) };
  g() : Object { "abc".substr(1, "a") };
  h() : Object { "abc".substr("a", 1) };
  i() : Object { "abc".concat(1) };
  j() : Object { out_int("a") };
  k() : Object { out_string(1) };
  l() : Object { in_int(1) };
  m() : Int { "abc".type_name() };
  n() : Int { in_string() };
  o() : IO { out_int(1) };
  p() : Main { (new IO).out_int(1) };
  q() : Main { abort() };
  main() : Object { 0 };
};
