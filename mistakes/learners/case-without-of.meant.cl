class Piece { };
class Rook inherits Piece { };
class Queen inherits Piece { };
class Chess inherits IO {
  points : Int <- 0;
  value(p : Piece) : Int {
    case p of
      r : Rook => 5;
      q : Queen => 9;
      x : Piece => 1;
    esac
  };
  capture(p : Piece) : Chess {
    {
      points <- points + value(p);
      out_string("captured for ");
      out_int(points);
      out_string("\n");
      self;
    }
  };
};
class Main {
  main() : Object {
    (new Chess).capture(new Rook).capture(new Piece).capture(new Queen)
  };
};
