class Token { };
class Number inherits Token { };
class Operator inherits Token { };
class Main inherits IO {
  weight(t : Token) : Int {
    case t of
      n : Number => 1;
      o : Number => 2;
      t : Token => 0;
    esac
  };
  main() : Object { out_int(weight(new Operator)) };
};
