class Card {
  rank : Int;
  deal(r : Int) : SELF_TYPE { { rank <- r; self; } };
  getRank() : Int { rank };
  beats(other : Card) : Bool { other.getRank() < rank };
};
class Main inherits IO {
  main() : Object {
    if (new Card).deal(9).beats((new Card).deal(5))
    then out_string("wins") else out_string("loses") fi
  };
};
