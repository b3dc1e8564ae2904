class Main {
  main() : Int { 1 };
  type_name() : Int { 1 };
};
