class Main {
  main() : Int { 1 };
  f(x : Int, y : SELF_TYPE) : Int { 1 };
};
