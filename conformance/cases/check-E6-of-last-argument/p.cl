class Main {
  main() : Int { 1 };
  f(x : Int, y : Bool) : Int { f(1, 1) };
};
