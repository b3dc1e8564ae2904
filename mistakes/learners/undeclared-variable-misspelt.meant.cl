class Account {
  balance : Int <- 0;
  deposit(amount : Int) : Int { balance <- balance + amount };
  interest(rate : Int) : Int { balance * rate / 100 };
};
class Main inherits IO {
  a : Account <- new Account;
  main() : Object { { a.deposit(900); out_int(a.interest(3)); } };
};
