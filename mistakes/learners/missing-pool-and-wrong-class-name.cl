class Ledger inherits IO {
  sum : Int <- 0;
  read(n : Int) : Int {
    {
      while 0 < n loop { sum <- sum + in_int(); n <- n - 1; } ;
      sum;
    }
  };
};
class Main inherits IO {
  l : Leger <- new Ledger;
  main() : Object { out_int(l.read(3)) };
};
