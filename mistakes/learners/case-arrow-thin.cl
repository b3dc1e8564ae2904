class Coin { };
class Penny inherits Coin { };
class Dime inherits Coin { };
class Main inherits IO {
  cents(c : Coin) : Int {
    case c of
      p : Penny -> 1;
      d : Dime => 10;
      x : Coin => 0;
    esac
  };
  main() : Object { out_int(cents(new Dime) + cents(new Penny)) };
};
