class Main {
  main() : Int { 1 };
  f(self : Main) : Int { 1 };
};
