class Main {
  main() : Int { 1 };
  y() : String { case 1 of x : Int => "a"; z : Object => 0; esac };
};
