class Wallet {
  coins : Int <- 3;
  earn(n : Int) : Int { coins <- coins + n };
  spend(n : Int) : Int { coins <- coins - n };
};
class Main inherits IO {
  w : Wallet <- new Wallet;
  main() : Object { { w.earn(12); out_int(w.spend(5)); } };
};
