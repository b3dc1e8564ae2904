class Traffic inherits IO {
  state : Int <- 0;
  next() : Int { if state = 2 then state <- 0 else state <- state + 1  };
  color() : String {
    if state = 0 then "red" else if state = 1 then "green" else "amber" fi
  };
};
class Main {
  t : Traffic <- new Traffic;
  main() : Object { { t.next(); t.out_string(t.color()); } };
};
