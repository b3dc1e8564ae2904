class Turtle {
  steps : Int <- 0;
  forward(n : Int) : Turtle { { steps <- steps + n; self; } };
  restart() : Turtle { { steps <- 0; self; } };
  travelled() : Int { steps };
};
class Main inherits IO {
  main() : Object { out_int((new Turtle).forward(5).restart().forward(2).travelled()) };
};
