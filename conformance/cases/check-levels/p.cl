class Main {
  a : Int;
  main() : Object { a + not a = a };
};
