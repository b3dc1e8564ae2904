class Shout {
  loud(s : String) : String { s.concat("!!!") };
};
class Main inherits IO {
  s : Shout <- new Shout;
  main(args : String) : Object {
    { out_string(s.loud("hey")); out_string("\n"); }
  };
};
