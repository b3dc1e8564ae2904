class Chicken inherits Egg {
  lay() : Int { 1 };
};
class Egg inherits Chicken {
  hatch() : Int { 2 };
};
class Main inherits IO {
  main() : Object { out_int((new Chicken).lay() + (new Egg).hatch()) };
};
