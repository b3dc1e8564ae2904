class Main {
  main() : Int { 1 };
  self : Main;
};
