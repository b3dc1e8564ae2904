class Player {
  Int score <- 0;
  name : String <- "anon";
  hit(p : Int) : Int { score <- score + p };
  getScore() : Int { score };
};
class Main inherits IO {
  main() : Object {
    let p : Player <- new Player in {
      p.hit(10);
      p.hit(25);
      out_int(p.getScore());
    }
  };
};
