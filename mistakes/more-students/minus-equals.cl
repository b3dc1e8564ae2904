class Account {
  balance : Int <- 100;
  withdraw(amount : Int) : Int {
    if amount <= balance then balance -= amount else balance fi
  };
};
class Main inherits IO {
  main() : Object { out_int((new Account).withdraw(30)) };
};
