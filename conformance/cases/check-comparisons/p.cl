class Main {
  a : Int;
  main() : Object { a < a
    < a };
};
