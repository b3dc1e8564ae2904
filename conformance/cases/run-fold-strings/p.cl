class Main inherits IO {
  main() : Object { {
    out_string(if "a" = "a" then "same" else "other" fi);
    out_string(if "" = "b" then "same" else "other" fi.concat("!"));
    out_int("abc".length() + (1 + 1));
    out_string("abc".substr(2 - 1, 1 + 1));
  } };
};
