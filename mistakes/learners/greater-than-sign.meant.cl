class Bank {
  money : Int <- 100;
  withdraw(n : Int) : Bool {
    if money < n then false else { money <- money - n; true; } fi
  };
  left() : Int { money };
};
class Main inherits IO {
  b : Bank <- new Bank;
  main() : Object { { b.withdraw(30); b.withdraw(90); out_int(b.left()); } };
};
