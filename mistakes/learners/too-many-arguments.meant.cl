class Garden {
  plants : Int <- 2;
  sow(n : Int) : Int { plants <- plants + n };
  harvest() : Int { plants * 3 };
};
class Main inherits IO {
  g : Garden <- new Garden;
  main() : Object { { g.sow(4); out_int(g.harvest()); } };
};
