class Main {
  main() : Int { 1 };
  y() : SELF_TYPE { new Main };
};
