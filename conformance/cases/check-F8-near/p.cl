class Base inherits IO {
  main() : Object { out_string("inherited\n") };
};
class Main inherits Base {
  main : Int;
  main() : Object { self@Base.main() };
};
