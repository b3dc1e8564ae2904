class Main {
  main() : Int { 1 };
  y : Int <- while false loop 0 pool;
};
