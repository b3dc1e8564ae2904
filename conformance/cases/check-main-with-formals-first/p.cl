class Main {
  main(x : Int) : Int { 1 };
  main() : Int { 1 };
};
