class Creature {
  legs() : Int { 4 };
  name() : String { "creature" };
};
class Spider inherits Creature {
  legs() : String { "8" };
  name() : String { "spider" };
};
class Main inherits IO {
  c : Creature <- new Spider;
  main() : Object { { out_string(c.name()); out_int(c.legs()); } };
};
