class List {
  car : Int;
  cdr : List;
  cons(h : Int, t : List) : List { { car <- h; cdr <- t; self; } };
  len() : Int { if isvoid cdr then 1 else 1 + cdr.len() fi };
};
class Main inherits IO {
  main() : Object {
    out_int((new List).cons(1, (new List).cons(2, new List)).len())
  };
};
