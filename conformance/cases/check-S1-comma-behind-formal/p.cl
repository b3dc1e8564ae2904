class Main {
  main() : Int { 1 };
  f(x : Int,) : Int { 1 };
};
