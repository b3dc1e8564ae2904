-- Three mistakes, each in a feature of its own: `check` tells where.

class Account {
  balance : Int;
  owner : String <- "Ada";

  deposit(sum : Int) : SELF_TYPE { { balance <- balance + summ; self; } };
  owner() : String { balance };
};

class Main inherits IO {
  main() : Object {
    let account : Account <- new Account in
      out_string(account.deposit("ten").owner())
  };
};
