class Main {
  main() : Int { 1 };
  f() : Int { 1 };
  f() : Int { 1 };
};
