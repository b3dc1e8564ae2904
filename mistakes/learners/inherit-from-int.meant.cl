class Money {
  cents : Int <- 0;
  add(n : Int) : Money { { cents <- cents + n; self; } };
  euros() : Int { cents / 100 };
};
class Main inherits IO {
  main() : Object { out_int((new Money).add(250).add(175).euros()) };
};
