class Main {
  main() : Int { 1 };
  x : Paint;
};
