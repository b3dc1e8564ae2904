class Chicken inherits Egg {
  lay() : Int { 1 };
};
class Egg {
  hatch() : Int { 2 };
};
class Main inherits IO {
  main() : Object { out_int((new Chicken).lay() + (new Egg).hatch()) };
};
