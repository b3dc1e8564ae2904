class Main {
  main() : Int { 1 };
  f(x : Paint) : Int { 1 };
};
