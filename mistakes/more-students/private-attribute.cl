class Account {
  private int balance;
  deposit(n : Int) : Int { balance <- balance + n };
};
class Main inherits IO {
  main() : Object {
    out_int((new Account).deposit(5))
  };
};
