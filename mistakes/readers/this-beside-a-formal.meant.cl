class Main inherits IO {
  n : Int;
  set(m : Int) : Object { n <- m };
  main() : Object { set(1) };
};
