class Ticket inherits IO {
  number : Int <- 41;
  next() : Int { number <- number + 1 };
  print() : Object { { out_string("Ticket "); out_int(number); } };
};
class Main {
  t : Ticket <- new Ticket;
  main() : Object { { t.next(); t.print(); } };
};
