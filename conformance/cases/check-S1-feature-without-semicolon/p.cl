class Main {
  x : Int
  ; main() : Int { 1 }
};
