class Battle inherits IO {
  hp : Int <- 20;
  strike(power : Int, shield : Int) : Object {
    if shield < power then hp <- hp - power + shield; else out_string("blocked\n") fi
  };
  left() : Int { hp };
};
class Main inherits IO {
  b : Battle <- new Battle;
  main() : Object { { b.strike(7 2); b.strike(1, 3); out_int(b.left()); } };
};
