class Account {
  balance : Int <- 0
  owner : String <- "nobody";
  deposit(n : Int) : Int { balance <- balance + n };
  getBalance() : Int { balance };
};
class Main inherits IO {
  main() : Object {
    let a : Account <- new Account in {
      a.deposit(50);
      out_int(a.getBalance());
    }
  };
};
