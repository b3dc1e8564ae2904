class Account {
  balance : Int;
  deposit(amount : Int) : Int { balance <- balance + amount };
};
class Main inherits IO {
  account : Account <- new Acount;
  main() : Object { out_int(account.deposit(3)) };
};
