class Main {
  main(x : Int) : Int { 1 };
};
