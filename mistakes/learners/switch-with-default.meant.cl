class Fruit { };
class Apple inherits Fruit { };
class Pear inherits Fruit { };
class Main inherits IO {
  price(f : Fruit) : Int {
    case f of
      a : Apple => 30;
      p : Pear => 45;
      x : Fruit => 0;
    esac
  };
  main() : Object { out_int(price(new Pear)) };
};
