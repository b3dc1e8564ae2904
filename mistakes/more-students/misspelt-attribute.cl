class Account {
  balance : Int;
  deposit(n : Int) : Int { balence <- balance + n };
};
class Main inherits IO {
  main() : Object {
    out_int((new Account).deposit(5))
  };
};
