class Main {
  main() : Int { 1 };
  f() : Paint { f() };
};
