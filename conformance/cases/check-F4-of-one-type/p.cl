class Main {
  main() : Int { 1 };
  f(z : Int, z : Int) : Int { 1 };
};
