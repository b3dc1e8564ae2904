class Main {
  main() : Int { 1 };
  main(x : Int) : Int { 1 };
};
