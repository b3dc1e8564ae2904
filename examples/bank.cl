-- A bank whose accounts are of several kinds, and `case` tells at the end of a month what happens to each.
-- Of the branches that fit, the one of the nearest class is taken: a student's account is a current one, too.

class Account {
  owner : String;
  balance : Int;

  open(name : String, amount : Int) : SELF_TYPE {
    {
      owner <- name;
      balance <- amount;
      self;
    }
  };

  owner() : String { owner };
  balance() : Int { balance };

  -- How far below zero the balance may go.
  credit() : Int { 0 };

  deposit(amount : Int) : Object { balance <- balance + amount };

  -- Takes an amount where the account has it, and says whether it did.
  withdraw(amount : Int) : Bool {
    if amount <= balance + credit() then {
      balance <- balance - amount;
      true;
    } else false fi
  };
};

class Savings inherits Account {
  interest() : Int { balance * 3 / 100 };
};

class Current inherits Account {
  fee : Int <- 5;

  fee() : Int { fee };
  credit() : Int { 200 };
};

class Student inherits Current {
  credit() : Int { 50 };
};

-- The accounts of a bank: one account, and the others.
class Accounts {
  first : Account;
  others : Accounts;

  make(account : Account, accounts : Accounts) : SELF_TYPE {
    {
      first <- account;
      others <- accounts;
      self;
    }
  };

  first() : Account { first };
  others() : Accounts { others };
};

class Bank inherits IO {
  accounts : Accounts;

  add(account : Account) : Account {
    {
      accounts <- (new Accounts).make(account, accounts);
      account;
    }
  };

  transfer(amount : Int, giver : Account, taker : Account) : Object {
    {
      out_string(giver.owner()).out_string(" pays ").out_int(amount);
      out_string(" to ").out_string(taker.owner());
      if giver.withdraw(amount) then {
        taker.deposit(amount);
        out_string("\n");
      } else out_string(": refused\n") fi;
    }
  };

  -- What an account gets at the end of a month, or pays where it is negative.
  monthly(account : Account) : Int {
    case account of
      savings : Savings => savings.interest();
      student : Student => 0;
      current : Current => ~current.fee();
      other : Account => ~1;
    esac
  };

  end_month() : Object {
    let rest : Accounts <- accounts in {
      out_string("-- end of the month --\n");
      while not isvoid rest loop {
        rest.first().deposit(monthly(rest.first()));
        rest <- rest.others();
      } pool;
    }
  };

  report() : Object {
    let rest : Accounts <- accounts in
      while not isvoid rest loop
        let account : Account <- rest.first() in {
          out_string("  ").out_string(account.owner()).out_string(", ").out_string(account.type_name());
          out_string(": ").out_int(account.balance()).out_string("\n");
          rest <- rest.others();
        }
      pool
  };
};

class Main {
  bank : Bank <- new Bank;
  dan : Account <- bank.add((new Account).open("Dan", 0));
  cleo : Account <- bank.add((new Student).open("Cleo", 30));
  ben : Account <- bank.add((new Current).open("Ben", 120));
  ada : Account <- bank.add((new Savings).open("Ada", 1000));

  main() : Object {
    {
      bank.report();
      bank.transfer(250, ben, ada);
      bank.transfer(100, cleo, dan);
      bank.transfer(75, cleo, dan);
      bank.transfer(80, dan, ben);
      bank.report();
      bank.end_month();
      bank.report();
    }
  };
};
