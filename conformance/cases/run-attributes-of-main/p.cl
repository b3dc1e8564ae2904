-- Main's own attributes, inherited and not, and a second object of Main.
class Base inherits IO {
  level : Int <- 1;
  up() : SELF_TYPE { { level <- level + 1; self; } };
};
class Main inherits Base {
  made : Bool <- { out_string("Main is made\n"); true; };
  name : String <- "first";
  other : Main;
  rename(s : String) : SELF_TYPE { { name <- s; self; } };
  show() : SELF_TYPE { out_string(name).out_string(" ").out_int(level).out_string("\n") };
  main() : Object { {
    up().up().show();
    other <- (new Main).rename("second").up();
    other.show();
    show();
    (new SELF_TYPE).show();
    if isvoid other then abort() else main2(other) fi;
  } };
  main2(m : Main) : Object { { m.rename("renamed"); other.show(); name <- "changed"; show(); m.show(); } };
};
