class A {
  seven : Int <- 3 + 4;
  set(n : Int) : SELF_TYPE { { seven <- n; self; } };
  seven() : Int { seven };
};
class Main inherits IO {
  two : Int <- 1 + 1;
  main() : Object {
    let a : A <- new A, n : Int <- 2 * 2 in {
      out_int(two);
      out_int(a.seven());
      out_int(a.set(8 - 2).seven());
      while 2 - 1 < n loop n <- n - (3 - 2) pool;
      out_int(n);
      case 5 * 5 of
        i : Int => out_int(i + (0 - 5));
        o : Object => out_string("no number");
      esac;
      self@IO.out_int(10 / 5);
    }
  };
};
