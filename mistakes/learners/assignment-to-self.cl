class Turtle {
  steps : Int <- 0;
  forward(n : Int) : Turtle { { steps <- steps + n; self; } };
  restart() : Turtle { self <- new Turtle };
  travelled() : Int { steps };
};
class Main inherits IO {
  main() : Object { out_int((new Turtle).forward(5).restart().forward(2).travelled()) };
};
